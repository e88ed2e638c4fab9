#!/bin/sh
# Nanoseconds of a set and of a get at its own gateway in a group 4 2: by members in memory, and by their nodes alone, by hand:
# sh bench/member_times.sh
set -eu
top=$(cd "$(dirname "$0")/.." && pwd)
work=$(mktemp -d)
trap 'rm -rf "$work"' EXIT
sh "$top/bench/stand" "$work" member_times
sh "$top/bench/optimised" "$work/kit"
(cd "$work/crates/member_times" && "$work/kit/bin/rt" try --steps 1 --seconds 1800 > "$work/times.txt" 2> "$work/log.txt") || { tail -20 "$work/log.txt"; exit 1; }
echo "ns a call, the least and the median of 201 runs: a set of 100 bytes, with its messages to both parity processes and"
echo "back; a get; each by members, with its share of a round of pings, and by nodes, which judge the same messages"
awk 'BEGIN { split("set by members,set by nodes,get by members,get by nodes", name, ",") }
    NF == 2 { printf "%15s %6d %6d\n", name[NR], $1, $2 }' "$work/times.txt"
