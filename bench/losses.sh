#!/bin/sh
# A load on a group 4 2 that loses a data process after a third of the time and a parity process after two, each with all that was under way
# on its links, with the checking client of bench/load: no set that was acknowledged may be lost. Then, over a fresh group, the medians of each
# partition before a loss and behind each. sh bench/losses.sh [SECONDS, 30; 600 for ten minutes] [PROGRAM]
# By hand, over the executable that `rt run` leaves. ADDRESS=HOST:PORT loads a server that runs already, with `control = true`, and leaves out the medians.
set -eu
here=$(cd "$(dirname "$0")" && pwd)
seconds=${1:-30}
program=${2:-$here/../crates/cocytus_main/out/cocytus_main}
port=21211
work=$(mktemp -d)
pid=
trap 'if [ -n "$pid" ]; then kill "$pid"; wait "$pid" 2> /dev/null || true; fi; rm -rf "$work"' EXIT
trap 'exit 1' INT TERM
rustc --edition 2024 -O -o "$work/load" "$here/load/main.rs"
serve() {
    printf 'k = 4\nm = 2\nblocks = 4096\nblock = 4096\naddress = "127.0.0.1:%d"\nworkers = 12\ncontrol = true\n' $port > "$work/settings.toml"
    "$program" serve < "$work/settings.toml" > "$work/served" & pid=$!
    sleep 1
}
if [ -z "${ADDRESS:-}" ]; then serve; fi
third=$((seconds / 3))
"$work/load" "${ADDRESS:-127.0.0.1:$port}" --connections 8 --depth "${DEPTH:-4}" --gets 30 --size "${SIZE:-1000}" --keys 10000 --seconds "$seconds" \
    --tell $((seconds / 15 + 1)) --fail "d1:0@$third" --fail "p0:0@$((2 * third))"
if [ -n "${ADDRESS:-}" ]; then exit; fi
kill "$pid"
wait "$pid" 2> /dev/null || true
rustc --edition 2024 -O -o "$work/medians" "$here/medians/main.rs"
serve
"$work/medians" 127.0.0.1:$port 4 100 5 d1 p0
