#!/bin/sh
# Seconds of carrying a group's items into a fresh group, and resident memory at its most, by hand: sh bench/regroup.sh [PROGRAM]. The group
# has four data and two parity processes, of which two data processes were lost, so half of the items are read through lost blocks; items of
# 100 bytes and of 4 KiB. Seconds are the difference of processor time of two scripts that are played, with a line `regroup` and without it:
# what is logged of reading and setting, and written of it, is in them.
set -eu
top=$(cd "$(dirname "$0")/.." && pwd)
program=${1:-$top/crates/cocytus_main/out/cocytus_main}
work=$(mktemp -d)
trap 'rm -rf "$work"' EXIT

# So many items of so many bytes, two losses, and then this line.
script() {
    awk -v count="$1" -v bytes="$2" -v last="$3" "$(cat "$top/bench/home.awk")"'
    BEGIN {
        print "group 4 2 16384 4096"
        for (n = 0; n < count; n++) {
            key = "k" n
            printf "ask 0 d%d set %s 0 *%d*%02x\n", home(key), key, bytes, n % 256
            if (n % 200 == 199) print "drain"
        }
        print "drain\nfail d0 all\nfail d1 all\ndrain\n" last
    }'
}

# Processor seconds and kilobytes.
play() {
    script "$1" "$2" "$3" > "$work/script"
    /usr/bin/time -f '%U %S %M' "$program" play_regroup < "$work/script" 2>&1 > "$work/out" | tail -1 | awk '{ print $1 + $2, $3 }'
}

for items in "15360 4096" "500000 100"; do
    set -- $items
    before=$(play $1 $2 stop)
    after=$(play $1 $2 "regroup 2 16384 4096")
    grep -q "^regrouped $1\$" "$work/out" || { echo "no $1 items were carried" >&2; exit 1; }
    echo "$before $after" | awk -v count=$1 -v bytes=$2 '{
        printf "%d items of %d bytes: carried in %.2f s, %.0f MB a second; %d KB without, %d KB with the carry\n",
            count, bytes, $3 - $1, count * bytes / 1e6 / ($3 - $1), $2, $4
    }'
done
