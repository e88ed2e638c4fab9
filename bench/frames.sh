#!/bin/sh
# Updates a second, and gigabytes of their frames a second, for values of three sizes, by hand: sh bench/frames.sh
# A frame is written whole, or what stands around its value alone; a stream is read in pieces of 65,536 bytes; and the
# same bytes are copied into a fresh vector.
set -eu
top=$(cd "$(dirname "$0")/.." && pwd)
work=$(mktemp -d)
trap 'rm -rf "$work"' EXIT
sh "$top/bench/stand" "$work" frames_bench
(cd "$work/crates/frames_bench" && rt run > "$work/frames.txt" 2> "$work/log.txt") || { tail -20 "$work/log.txt"; exit 1; }
echo "best of 100 runs: millions of updates a second, and GB/s"
awk 'BEGIN { printf "%8s %18s %18s %18s %8s\n", "value", "encode", "encode_around", "decode", "copy" }
    { bytes = $2 * $3
      printf "%8d %9.2f %8.2f %9.2f %8s %9.2f %8.2f %8.2f\n", $1, $3 * 1e3 / $4, bytes / $4, $3 * 1e3 / $5, "", $3 * 1e3 / $6, bytes / $6, bytes / $7 }' "$work/frames.txt"
# and frames of links, with their sums
sh "$top/bench/stand" "$work/links" links_bench
(cd "$work/links/crates/links_bench" && rt run > "$work/links.txt" 2> "$work/log.txt") || { tail -20 "$work/log.txt"; exit 1; }
echo "frames of links, with their sums: ns a frame, GB/s; and the sum alone, GB/s"
awk 'BEGIN { printf "%8s %18s %18s %8s\n", "value", "write", "read", "sum" }
    { bytes = $2 * $3
      printf "%8d %9.0f %8.2f %9.0f %8.2f %8.2f\n", $1, $4 / $3, bytes / $4, $5 / $3, bytes / $5, bytes / $6 }' "$work/links.txt"
