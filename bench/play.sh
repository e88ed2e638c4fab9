#!/bin/sh
# Plays scripts of 10,000 and 100,000 lines over a group of one process and over one of four data processes and two parity
# processes, and prints seconds, events a second, and the ratio of the two lengths, which is at most 15. It runs by hand, over the
# executable that `rt run` leaves.
set -eu
top=$(cd "$(dirname "$0")/.." && pwd)
program=${1:-$top/crates/cocytus_main/out/cocytus_main}
work=$(mktemp -d)
trap 'rm -rf "$work"' EXIT

# Two sets of 100 bytes to one get, and a drain every tenth line.
script() {
    awk -v lines="$1" -v k="$2" -v m="$3" "$(cat "$top/bench/home.awk")"'
    BEGIN {
        print "group", k, m, 1024, 65536 / (k > 1 ? 4 : 1)
        for (i = 0; i < lines; i++) {
            key = "k" (i * 7919 % 1000)
            if (i % 10 == 9) print "drain"
            else if (i % 3 == 2) print "ask", i % 256, "d" (k == 1 ? 0 : home(key)), "get", key
            else print "ask", i % 256, "d" (k == 1 ? 0 : home(key)), "set", key, 7, "*100*61"
        }
        print "drain"
        print "stop"
    }'
}

seconds() {
    start=$(date +%s%N)
    "$program" play < "$1" > "$1.out"
    end=$(date +%s%N)
    echo "$start $end" | awk '{ printf "%.3f", ($2 - $1) / 1e9 }'
}

measure() {
    for lines in 10000 100000; do
        script $lines "$1" "$2" > "$work/script$lines"
        seconds "$work/script$lines" > "$work/seconds$lines"
        awk -v lines=$lines -v seconds="$(cat "$work/seconds$lines")" -v group="$1 $2" '
            /^drained / { events += $2 } /^(reply|ticket|retry|no_space|moved)/ { events++ }
            END { printf "group %s, %d lines: %s s, %d events, %d a second\n", group, lines, seconds, events, events / seconds }' "$work/script$lines.out"
    done
    echo "$(cat "$work/seconds10000") $(cat "$work/seconds100000")" | awk '{ ratio = $2 / $1; printf "ratio %.1f\n", ratio; exit ratio > 15 }'
}

measure 1 0
measure 4 2
