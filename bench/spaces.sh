#!/bin/sh
# Nanoseconds a call of the spaces' apply beside one plain vector, by hand: sh bench/spaces.sh
set -eu
top=$(cd "$(dirname "$0")/.." && pwd)
work=$(mktemp -d)
trap 'rm -rf "$work"' EXIT
sh "$top/bench/stand" "$work" spaces_bench
(cd "$work/crates/spaces_bench" && rt run > "$work/spaces.txt" 2> "$work/log.txt") || { tail -20 "$work/log.txt"; exit 1; }
echo "ns a call, differences of 100 bytes at a million random places of 64 MiB, best of 9 runs"
awk 'NR == 1 { vector = $2 }
    { printf "%12s %9.1f  %.2f times\n", $1, $2 / 1000000, $2 / vector }' "$work/spaces.txt"
