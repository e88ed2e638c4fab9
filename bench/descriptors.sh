#!/bin/sh
# A `serve` that may open few files: so many clients come as there are descriptors for and some more, and all go again. Those that are one too
# many must be told so and closed, the others served, and the newcomers behind them too; standard error tells it once, and that it is over.
# sh bench/descriptors.sh [PROGRAM], by hand, over the executable that `rt run` leaves; some seconds.
set -eu
here=$(cd "$(dirname "$0")" && pwd)
program=${1:-$here/../crates/cocytus_main/out/cocytus_main}
work=$(mktemp -d)
pid=
trap 'if [ -n "$pid" ]; then kill "$pid"; wait "$pid" 2> /dev/null || true; fi; rm -rf "$work"' EXIT
trap 'exit 1' INT TERM
printf 'k = 4\nm = 2\nblocks = 64\nblock = 64\naddress = "127.0.0.1:21213"\nworkers = 4\n' > "$work/settings.toml"
(ulimit -n 40; exec "$program" serve < "$work/settings.toml" > "$work/served" 2> "$work/told") & pid=$!
sleep 1
python3 "$here/hostile/descriptors.py" 127.0.0.1 21213
kill -0 "$pid"
echo "standard error:"
cat "$work/told"
