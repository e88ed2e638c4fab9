#!/bin/sh
# What clients and others that behave badly take of a member: sh bench/bounds.sh [PROGRAM]. Six members on this machine: more clients than d0 has descriptors for,
# 10,000 connections at d1, clients at d2 that send half of what they should or read nothing, and a parity process that reads nothing for ten seconds
# while all others are loaded, whose memory is told. By hand, over the executable that `rt run` leaves; some two minutes. It fails where a client is neither served
# nor told why.
set -eu
here=$(cd "$(dirname "$0")" && pwd)
program=${1:-$here/../crates/cocytus_main/out/cocytus_main}
work=$(mktemp -d)
members=
trap 'for each in $members; do kill -CONT "$each"; kill "$each"; done 2> /dev/null; rm -rf "$work"' EXIT
trap 'exit 1' INT TERM
settings=$work/member.toml
# A machine that other work has is slow: nobody is let go for that.
sed 's/^patience = .*/patience = 300/' "$here/../examples/machines/member.toml" > "$settings"
rustc --edition 2024 -O -o "$work/load" "$here/load/main.rs"

# Starts a member that may have so many descriptors.
start() {
    (ulimit -n "$2"; exec "$program" member "$1" < "$settings" > /dev/null 2> "$work/$1.said") & members="$members $!"
    echo $! > "$work/$1.pid"
}

resident() { awk -v name="$1" '/^VmRSS/ { printf "%s %.1f MiB ", name, $2 / 1024 }' "/proc/$(cat "$work/$1.pid")/status"; }

start d0 60
for name in d1 d2 d3 p0 p1; do start $name 11000; done
for name in d0 d1 d2 d3 p0 p1; do
    until grep -q 'serves at' "$work/$name.said"; do sleep 0.2; done
done

echo "more clients than descriptors, at d0:"
python3 "$here/hostile/descriptors.py" 127.0.0.1 21200
grep -v 'linked\|serves' "$work/d0.said" || true

echo "10,000 connections at d1:"
(ulimit -n 11000; python3 "$here/hostile/many.py" 127.0.0.1 21201)
resident d1; echo

echo "clients that behave badly, at d2:"
python3 "$here/hostile/hostile.py" 127.0.0.1 21202 "$(cat "$work/d2.pid")"

echo "p1 reads nothing for 10 s, and five members are loaded:"
for name in d0 d1 d2 d3 p0; do resident $name; done; echo
kill -STOP "$(cat "$work/p1.pid")"
"$work/load" 127.0.0.1:21200,127.0.0.1:21201,127.0.0.1:21202,127.0.0.1:21203,127.0.0.1:21204 --connections 30 --threads 2 --depth 16 --gets 50 --size 100000 --keys 200 --seconds 12 > "$work/loaded" 2>&1 & load=$!
sleep 10
for name in d0 d1 d2 d3 p0; do resident $name; done; echo
kill -CONT "$(cat "$work/p1.pid")"
wait $load || { cat "$work/loaded"; exit 1; }
cut -d' ' -f1-12,15-24 "$work/loaded"
for name in d0 d1 d2 d3 p0; do resident $name; done; echo
