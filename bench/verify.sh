#!/bin/sh
# Seconds of playing a script and of verifying its transcript, by hand: sh bench/verify.sh [PROGRAM]. Scripts of 10,000 and of 100,000 lines over a
# group of four data and two parity processes, two sets of 100 bytes to a get, of which every hundredth line shows a block of a process in turn and
# the last tells the runs. Ten times the lines may take 12 times as long to verify, and a transcript twice as long as its play.
set -eu
top=$(cd "$(dirname "$0")/.." && pwd)
program=${1:-$top/crates/cocytus_main/out/cocytus_main}
work=$(mktemp -d)
trap 'rm -rf "$work"' EXIT

script() {
    awk -v lines="$1" "$(cat "$top/bench/home.awk")"'
    BEGIN {
        split("d0 d1 d2 d3 p0 p1", names)
        print "group 4 2 1024 16384"
        for (i = 0; i < lines - 3; i++) {
            key = "k" (i * 7919 % 1000)
            if (i % 100 == 50) print "show", names[1 + int(i / 100) % 6], i * 37 % 10000, 100
            else if (i % 10 == 9) print "drain"
            else if (i % 3 == 2) print "ask", i % 256, "d" home(key), "get", key
            else print "ask", i % 256, "d" home(key), "set", key, 7, sprintf("*100*%02x", i % 256)
        }
        print "drain\nplaces"
    }'
}

# Processor seconds of a command over a file.
seconds() {
    /usr/bin/time -f '%U %S' -o "$work/time" "$program" "$1" < "$2" > "$3"
    awk '{ print $1 + $2 }' "$work/time"
}

for lines in 10000 100000; do
    script $lines > "$work/script"
    played=$(seconds play "$work/script" "$work/transcript")
    { cat "$work/script"; echo ====; cat "$work/transcript"; } > "$work/both"
    verified=$(seconds verify "$work/both" "$work/verdict")
    echo "$lines lines, $(cat "$work/verdict"): played in $played s, verified in $verified s"
    echo "$played $verified" >> "$work/all"
done
awk '{ played[NR] = $1; verified[NR] = $2 } END {
    printf "ten times the lines: %.1f times as long to verify; %.2f of the play\n", verified[2] / verified[1], verified[2] / played[2]
}' "$work/all"
