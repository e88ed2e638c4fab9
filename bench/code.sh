#!/bin/sh
# Bytes per second of the code beside the kernel, by hand: sh bench/code.sh [PROCESSOR]
# PROCESSOR is x86-64-v2, as the gate builds, unless another is named, as x86-64-v3. ISA-L decodes beside it where its library is there (Debian's
# libisal-dev), by whatever the machine's processor has.
set -eu
processor=${1:-x86-64-v2}
top=$(cd "$(dirname "$0")/.." && pwd)
work=$(mktemp -d)
trap 'rm -rf "$work"' EXIT
sh "$top/bench/stand" "$work" code_bench
(cd "$work/crates/code_bench" && rt run --cpu "$processor" > "$work/code.txt" 2> "$work/log.txt") || { tail -20 "$work/log.txt"; exit 1; }
echo "GB/s of the blocks read for k = 4, m = 2, best of many runs, $processor: one product, one block's difference"
echo "into both parities, and two lost blocks from two rows and two known ones"
awk 'BEGIN { printf "%9s %9s %9s %9s\n", "bytes", "product", "delta", "decode" }
    { printf "%9d %9.2f %9.2f %9.2f\n", $1, $1 * $2 / $3, $1 * $2 / $4, 4 * $1 / $5 }' "$work/code.txt"
if cc -O2 -o "$work/isal" "$top/bench/code/isal.c" -lisal 2> "$work/log.txt"; then
    "$work/isal" | awk '{ printf "ISA-L decodes %d bytes: %.2f\n", $1, 4 * $1 / $2 }'
else
    echo "ISA-L isn't here"
fi
