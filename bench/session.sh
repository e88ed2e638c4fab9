#!/bin/sh
# Serves a connection over groups of three shapes from a file of requests: 100,000 sets of 100 bytes on as many keys, and then 100,000
# requests more, of which 90 of 100 are a get, or all a set. Prints requests a second of the second part, by the difference of two runs.
# It runs by hand, over the executable that `rt run` leaves.
set -eu
top=$(cd "$(dirname "$0")/.." && pwd)
program=${1:-$top/crates/cocytus_main/out/cocytus_main}
work=$(mktemp -d)
trap 'rm -rf "$work"' EXIT

# Requests: of so many, so many of a hundred are a get.
requests() {
    awk -v count="$1" -v gets="$2" 'BEGIN {
        value = sprintf("%100s", ""); gsub(/ /, "x", value)
        for (i = 0; i < count; i++) {
            key = "key" (i * 7919 % 100000)
            if (i * 37 % 100 < gets) printf "get %s\r\n", key
            else printf "set %s 0 0 100\r\n%s\r\n", key, value
        }
    }'
}

seconds() {
    start=$(date +%s%N)
    "$program" session $1 1024 65536 < "$2" > "$work/answers"
    end=$(date +%s%N)
    echo "$start $end" | awk '{ printf "%.3f", ($2 - $1) / 1e9 }'
}

requests 100000 0 > "$work/filling"
for gets in 90 0; do
    { cat "$work/filling"; requests 100000 $gets; } > "$work/both$gets"
done
for group in "1 0" "2 1" "4 2"; do
    filling=$(seconds "$group" "$work/filling")
    for gets in 90 0; do
        whole=$(seconds "$group" "$work/both$gets")
        echo "$filling $whole" | awk -v group="$group" -v gets=$gets '{ printf "group %s, %d of 100 a get: %d requests a second\n", group, gets, 100000 / ($2 - $1) }'
    done
done
