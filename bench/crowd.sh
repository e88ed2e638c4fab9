#!/bin/sh
# A crowd and those who would hold it up: sh bench/crowd.sh [PROGRAM]. 1,000 clients connect at once and idle; then 990 ask, in turn and all at once, while
# others hold half a request open, read nothing of a get of 8,000 items of 1 MiB, read it as fast as they can, send requests as fast as they can, or connect
# and close. By hand, over the executable that `rt run` leaves. A line for each: how many were answered in SECONDS_OF_A_RUN (3), p50, p99 and the longest in
# microseconds, the p99 over that of the quiet run before it, and the memory of the server in KiB. With MEASURE=PORT:PID it measures a server that runs.
set -eu
here=$(cd "$(dirname "$0")" && pwd)
program=${1:-$here/../crates/cocytus_main/out/cocytus_main}
work=$(mktemp -d)
server=
trap '[ -z "$server" ] || kill "$server" 2> /dev/null || true; rm -rf "$work"' EXIT
port=21212
if [ -n "${MEASURE:-}" ]; then
    port=${MEASURE%:*} pid=${MEASURE#*:}
else
    printf 'k = 4\nm = 2\nblocks = 16384\nblock = 4096\naddress = "127.0.0.1:%d"\nworkers = 4\n' $port > "$work/settings.toml"
    "$program" serve < "$work/settings.toml" > "$work/served" 2> "$work/notice" & server=$! pid=$!
    sleep 2
fi
rustc --edition 2024 -O -o "$work/load" "$here/load/main.rs"
python3 "$here/hostile/crowd.py" "$port" "$pid" "${SECONDS_OF_A_RUN:-3}" "$work/load"
