#!/bin/sh
# Calls over a group 4 2, by hand: sh bench/stage.sh. It proves all that it stands on first, which takes an hour of one core in a fresh clone.
# Gets and sets of 100 bytes: by a group of one's own and the same events from one seat of a shared one; by callers with seats of their
# own on one, two and four threads, each on ten keys of a data process of its own or all on the same ten; and the first get of lost
# blocks of 4 KiB. A set is asked, delivered to both parity processes and back, and collected.
set -eu
top=$(cd "$(dirname "$0")/.." && pwd)
work=$(mktemp -d)
trap 'rm -rf "$work"' EXIT
sh "$top/bench/stand" "$work" stage_bench
(cd "$work/crates/stage_bench" && rt run > "$work/stage.txt" 2> "$work/log.txt") || { tail -20 "$work/log.txt"; exit 1; }
echo "calls a second, nanoseconds a call of one thread, and the median and 99th percentile of a call"
awk 'BEGIN { printf "%5s %6s %8s %12s %8s %8s %8s\n", "call", "keys", "threads", "a second", "ns", "median", "late" }
    { printf "%5s %6s %8d %12.0f %8.0f %8d %8d\n", $1, $2, $3, $5 ? $4 * 1e9 / $5 : 0, $4 ? $5 * $3 / $4 : 0, $6, $7 }' "$work/stage.txt"
