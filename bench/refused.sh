#!/bin/sh
# Refuses each allocation of a command in turn: of each example's script, of a connection that loses two processes, and of a stream of
# two messages and a bad frame. The status is that of the command or 9, and what was written is then a front of the command's text and
# the line `fault: memory`. It runs by hand, with a C compiler, over the executable that `rt run` leaves: sh bench/refused.sh [PROGRAM]
set -eu
top=$(cd "$(dirname "$0")/.." && pwd)
program=${1:-$top/crates/cocytus_main/out/cocytus_main}
work=$(mktemp -d)
trap 'rm -rf "$work"' EXIT
cc -O2 -shared -fPIC -o "$work/refuse.so" "$top/bench/refused/refuse.c"

printf 'set a 0 0 1\r\nA\r\nset b 0 0 2\r\nBB\r\nappend a 0 0 1\r\nC\r\ncocytus_fail d0 0\r\nget a b\r\nset a 0 0 1\r\nD\r\ncocytus_fail d1 0\r\nget a b\r\nincr a 1\r\ndelete b\r\nquit\r\n' > "$work/connection"

{
    printf '\000\000\000\073\001\000\001\000\000\000\000\000\000\000\007\002\000\000\000\000\000\000\000\011\003key'
    printf '\000\000\000\000\005\000\000\000\000\020\000\000\000\007\000\000\000\007\001\002\003\004\005\006\007'
    printf '\000\000\000\000\000\000\000\000\000\006\000\000\000\003\012\001\000\000\000\000\003\013\001\000'
} > "$work/stream"

# Runs the words on an input, each allocation refused in turn.
refuse() {
    input=$1
    shift
    status=0
    COUNT="$work/count" LD_PRELOAD="$work/refuse.so" "$program" "$@" < "$input" > "$work/all" || status=$?
    ended=0
    for n in $(seq 1 "$(cat "$work/count")"); do
        now=0
        REFUSE=$n LD_PRELOAD="$work/refuse.so" "$program" "$@" < "$input" > "$work/out" 2> /dev/null || now=$?
        if [ $now = $status ]; then
            cmp -s "$work/out" "$work/all" || { echo "$input: allocation $n changed what was written"; exit 1; }
            continue
        fi
        length=$(($(wc -c < "$work/out") - 14))
        [ $now = 9 ] && [ $length -ge 0 ] && [ "$(tail -c 14 "$work/out")" = "fault: memory" ] || { echo "$input: allocation $n ended with status $now"; exit 1; }
        head -c $length "$work/out" > "$work/front"
        head -c $length "$work/all" | cmp -s - "$work/front" || { echo "$input: allocation $n wrote another text"; exit 1; }
        ended=$((ended + 1))
    done
    echo "$(basename "$input"): $(cat "$work/count") allocations refused, $ended ended the command with status 9"
}

for script in "$top"/examples/*.script; do
    if grep -q '^groups ' "$script"; then refuse "$script" play_groups; else refuse "$script" play; fi
done
refuse "$work/connection" session 4 2 16 16
refuse "$work/stream" frames
