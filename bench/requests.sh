#!/bin/sh
# Requests read a second of processor time, and GB/s, beside a plain C loop that only finds the lines
# and copies the values, by hand: sh bench/requests.sh
set -eu
here=$(cd "$(dirname "$0")" && pwd)
top=$(dirname "$here")
work=$(mktemp -d)
trap 'rm -rf "$work"' EXIT
sh "$top/bench/stand" "$work" requests_bench
cc -O3 -o "$work/lines" "$here/requests/lines.c"
(cd "$work/crates/requests_bench" && rt run > "$work/rattle.txt" 2> "$work/log.txt") || { tail -20 "$work/log.txt"; exit 1; }
"$work/lines" > "$work/c.txt"
echo "64 MiB of pipelined requests in pieces of 64 KiB, best of 5 runs, by processor time"
paste -d' ' "$work/rattle.txt" "$work/c.txt" | awk '
    BEGIN { printf "%8s %14s %8s %14s %8s\n", "request", "requests/s", "GB/s", "C requests/s", "GB/s" }
    { printf "%8s %14.0f %8.2f %14.0f %8.2f\n", $1, $5 * 1e9 / $2, $3 / $2, $10 * 1e9 / $7, $8 / $7 }'
