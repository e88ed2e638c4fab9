#!/bin/sh
# Nanoseconds a call of the item index beside std's HashMap, by hand: sh bench/index.sh
set -eu
here=$(cd "$(dirname "$0")" && pwd)
top=$(dirname "$here")
work=$(mktemp -d)
trap 'rm -rf "$work"' EXIT
sh "$top/bench/stand" "$work" index_bench
rustc -O -o "$work/map" "$here/index/map.rs"
(cd "$work/crates/index_bench" && rt run > "$work/rattle.txt" 2> "$work/log.txt") || { tail -20 "$work/log.txt"; exit 1; }
"$work/map" > "$work/rust.txt"
echo "ns a call, a million keys of 20 bytes, best of 5 runs; an entry is put by prepare and put"
paste -d' ' "$work/rattle.txt" "$work/rust.txt" | awk '
    BEGIN { printf "%12s %9s %9s %6s\n", "call", "index", "HashMap", "ratio" }
    { printf "%12s %9.0f %9.0f %6.2f\n", $1, $2 / 1000000, $4 / 1000000, $2 / $4 }'
