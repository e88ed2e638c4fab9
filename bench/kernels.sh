#!/bin/sh
# Bytes per second of the kernels beside C, by hand: sh bench/kernels.sh [PROCESSOR]
# PROCESSOR is x86-64-v2, as the gate builds, unless another is named, as x86-64-v3.
set -eu
processor=${1:-x86-64-v2}
here=$(cd "$(dirname "$0")" && pwd)
top=$(dirname "$here")
work=$(mktemp -d)
trap 'rm -rf "$work"' EXIT
sh "$top/bench/stand" "$work" kernels_bench
gcc -O3 -mssse3 -o "$work/kernels_c" "$here/kernels/kernels.c"
(cd "$work/crates/kernels_bench" && rt run --cpu "$processor" > "$work/rattle.txt" 2> "$work/log.txt") || { tail -20 "$work/log.txt"; exit 1; }
"$work/kernels_c" > "$work/c.txt"
echo "GB/s, best of 9 runs of 256 MiB, $processor"
paste -d' ' "$work/rattle.txt" "$work/c.txt" | awk '
    BEGIN { printf "%9s %9s %9s %6s %13s %9s %13s %6s\n", "bytes", "xor_into", "C -O3", "ratio", "mul_add_into", "C -O3", "C shuffle", "ratio" }
    function speed(spent) { return 268.435456 / spent * 1000000 }
    { printf "%9d %9.1f %9.1f %6.2f %13.1f %9.1f %13.1f %6.2f\n", $1, speed($2), speed($6), $6 / $2, speed($3), speed($7), speed($8), $8 / $3 }'
