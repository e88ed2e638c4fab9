#!/bin/sh
# Nanoseconds of a set and of a get at the gateway of its head in a group 4 2 of six gateways in memory, and what they take beyond their frames and the
# same calls made of members, by hand: sh bench/gateway_times.sh. RUNS=101 and CALLS=160 say how many runs of how many calls.
set -eu
top=$(cd "$(dirname "$0")/.." && pwd)
work=$(mktemp -d)
trap 'rm -rf "$work"' EXIT
sh "$top/bench/stand" "$work" gateway_times
sh "$top/bench/optimised" "$work/kit"
(cd "$work/crates/gateway_times" && "$work/kit/bin/rt" try --steps 1 --seconds 1800 -- "${RUNS:-101}" "${CALLS:-160}" > "$work/times.txt" 2> "$work/log.txt") || { tail -20 "$work/log.txt"; exit 1; }
echo "ns a call of 16 under way together, the least and the median of all runs: a set of 100 bytes, with the turns that it takes of all gateways"
echo "to which something comes, the frames of these turns alone, written, carried and read, and the same by members; a get likewise; and what a"
echo "gateway adds, by the least"
awk 'BEGIN { split("set,its frames,by members,get,its frames,by members", name, ",") }
    NF == 2 { printf "%15s %6d %6d\n", name[NR], $1, $2; least[NR] = $1 }
    END { printf "a set %d more, a get %d\n", least[1] - least[2] - least[3], least[4] - least[5] - least[6] }' "$work/times.txt"
