#!/bin/sh
# Nanoseconds that a node takes to judge an update of 100 bytes that comes from outside, by hand: sh bench/coming.sh.
set -eu
top=$(cd "$(dirname "$0")/.." && pwd)
work=$(mktemp -d)
trap 'rm -rf "$work"' EXIT
sh "$top/bench/stand" "$work" coming_bench
(cd "$work/crates/coming_bench" && rt run > "$work/coming.txt" 2> "$work/log.txt") || { tail -20 "$work/log.txt"; exit 1; }
echo "ns a test of an update of 100 bytes, a million tests, with so many updates in the log"
awk 'BEGIN { printf "%9s %9s\n", "waiting", "ns" }
    { printf "%9d %9.0f\n", $1, $2 / 1000000 }' "$work/coming.txt"
