#!/bin/sh
# Nanoseconds that a parity process takes to receive, acknowledge and settle an update, and microseconds from the first `get` of a
# lost block of 4 KiB to its reply, one and two of four data processes lost, by hand: sh bench/recovery.sh [PROGRAM]. Both are differences of
# processor time of scripts that are played, messages and transcript included: of groups with two parity processes and with one; and of gets that wait for
# their block and the same gets once it is rebuilt.
set -eu
top=$(cd "$(dirname "$0")/.." && pwd)
program=${1:-$top/crates/cocytus_main/out/cocytus_main}
work=$(mktemp -d)
trap 'rm -rf "$work"' EXIT

# So many keys of one home.
keys() {
    awk -v count="$1" -v wanted="$2" "$(cat "$top/bench/home.awk")"'
    BEGIN {
        for (n = 0; found < count; n++)
            if (home("k" n) == wanted) { print "k" n; found++ }
    }'
}

# The least processor seconds of five runs.
seconds() {
    for run in 1 2 3 4 5; do
        /usr/bin/time -f '%U %S' "$program" play < "$1" 2>&1 > "$work/out" | tail -1 | awk '{ print $1 + $2 }'
    done | sort -g | head -1
}

# A hundred thousand sets of a value of so many bytes, each drained.
sets() {
    echo "group 4 $1 1024 65536"
    keys 1000 0 > "$work/keys"
    for round in $(seq 100); do
        awk -v bytes="$2" -v round="$round" '{ printf "ask 0 d0 set %s 0 *%d*%02x\ndrain\n", $1, bytes, round }' "$work/keys"
    done
}

for bytes in 100 4096; do
    for m in 1 2; do
        sets $m $bytes > "$work/sets"
        seconds "$work/sets" > "$work/seconds$m"
    done
    echo "$(cat "$work/seconds1") $(cat "$work/seconds2")" |
        awk -v bytes=$bytes '{ printf "an update of %d bytes at a parity process: %d ns\n", bytes, ($2 - $1) / 100000 * 1e9 }'
done

# Five thousand blocks of values, of which those of d0 are read through a parity process: none, once, or twice.
reads() {
    echo "group 4 2 8192 4096"
    keys 5000 0 > "$work/keys"
    awk '{ printf "ask 0 d0 set %s 0 *4096*%02x\ndrain\n", $1, NR % 256 }' "$work/keys"
    for process in $1; do printf 'fail %s all\ndrain\n' "$process"; done
    if [ "$2" -ge 1 ]; then awk '{ printf "ask 0 p0 get %s\ndrain\nask 0 p0 get %s\n", $1, $1 }' "$work/keys"; fi
    if [ "$2" -ge 2 ]; then awk '{ printf "drain\nask 0 p0 get %s\n", $1 }' "$work/keys"; fi
}

for lost in "d0" "d0 d1"; do
    for times in 0 1 2; do
        reads "$lost" $times > "$work/reads"
        seconds "$work/reads" > "$work/seconds$times"
    done
    echo "$(cat "$work/seconds0") $(cat "$work/seconds1") $(cat "$work/seconds2")" |
        awk -v lost="$lost" '{ printf "a get of a lost block of 4 KiB, %s lost: %.1f us, once rebuilt %.1f us\n", lost, ($2 - $1) / 5000 * 1e6, ($3 - $2) / 5000 * 1e6 }'
done
