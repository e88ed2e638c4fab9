#!/bin/sh
# Nanoseconds of a call at a data process with two parity processes that acknowledge at once, by hand: sh bench/process.sh
set -eu
top=$(cd "$(dirname "$0")/.." && pwd)
work=$(mktemp -d)
trap 'rm -rf "$work"' EXIT
sh "$top/bench/stand" "$work" process_bench
(cd "$work/crates/process_bench" && rt run > "$work/process.txt" 2> "$work/log.txt") || { tail -20 "$work/log.txt"; exit 1; }
echo "ns a call at a data process, a million calls over so many keys: a set of 100 bytes with its two acknowledgements"
echo "and its collecting, and a get"
awk 'BEGIN { printf "%9s %9s %9s\n", "keys", "set", "get" }
    { printf "%9d %9.0f %9.0f\n", $1, $2 / 1000000, $3 / 1000000 }' "$work/process.txt"
