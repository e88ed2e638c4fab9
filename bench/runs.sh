#!/bin/sh
# Nanoseconds to find a place, take it and give it back, beside a pair of std's BTreeSets, by hand: sh bench/runs.sh
set -eu
top=$(cd "$(dirname "$0")/.." && pwd)
work=$(mktemp -d)
trap 'rm -rf "$work"' EXIT
sh "$top/bench/stand" "$work" runs_bench
rustc -O -o "$work/sets" "$top/bench/runs/sets.rs"
(cd "$work/crates/runs_bench" && rt run > "$work/rattle.txt" 2> "$work/log.txt") || { tail -20 "$work/log.txt"; exit 1; }
"$work/sets" > "$work/rust.txt" 2> "$work/log.txt"
echo "ns to find a place, take it and give it back, 200,000 times, best of 5 runs"
paste -d' ' "$work/rattle.txt" "$work/rust.txt" | awk '
    BEGIN { printf "%12s %9s %9s %6s\n", "free runs", "run_alloc", "BTreeSets", "ratio" }
    { printf "%12s %9.0f %9.0f %6.2f\n", $1, $2 / 200000, $4 / 200000, $2 / $4 }'
