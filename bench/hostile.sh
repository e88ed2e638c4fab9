#!/bin/sh
# What clients that behave badly do to others: half a line, answers that nobody reads, an end inside a block, 1 GB of garbage, 1,000 half lines.
# sh bench/hostile.sh [PROGRAM], by hand, over the executable that `rt run` leaves; a minute at most. ADDRESS=HOST:PORT asks a server that runs
# already.
set -eu
here=$(cd "$(dirname "$0")" && pwd)
program=${1:-$here/../crates/cocytus_main/out/cocytus_main}
if [ -n "${ADDRESS:-}" ]; then
    exec python3 "$here/hostile/hostile.py" "${ADDRESS%:*}" "${ADDRESS##*:}"
fi
work=$(mktemp -d)
pid=
trap 'if [ -n "$pid" ]; then kill "$pid"; wait "$pid" 2> /dev/null || true; fi; rm -rf "$work"' EXIT
trap 'exit 1' INT TERM
printf 'k = 4\nm = 2\nblocks = 4096\nblock = 4096\naddress = "127.0.0.1:21211"\nworkers = 4\n' > "$work/settings.toml"
"$program" serve < "$work/settings.toml" > "$work/served" & pid=$!
sleep 1
python3 "$here/hostile/hostile.py" 127.0.0.1 21211 "$pid"
