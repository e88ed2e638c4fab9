#!/bin/sh
# Memory that a group holds, in all its processes, links drained and its log left out: bytes for each byte of values of 4 KiB at 4 2, and bytes for an
# item of 100 bytes with a key of 20 at 1 0 and at 4 2; and what a `serve` 4 2, six members, and memcached and redis with two replicas, where they are
# installed, hold for such an item. By hand: sh bench/memory.sh [PROGRAM]. A group's is the difference of two scripts that log as much: sets on so many
# keys, and as many on half of them. Resident bytes at their most, as /usr/bin/time tells them; a server's as /proc does, before and behind 500,000 items.
set -eu
top=$(cd "$(dirname "$0")/.." && pwd)
program=${1:-$top/crates/cocytus_main/out/cocytus_main}
work=$(mktemp -d)
pids=
trap 'for pid in $pids; do kill "$pid" 2> /dev/null || true; done; rm -rf "$work"' EXIT

# A script of so many sets on so many keys, of values of so many bytes.
sets() {
    awk -v shape="$1" -v count="$2" -v keys="$3" -v len="$4" "$(cat "$top/bench/home.awk")"'
    BEGIN {
        print "group " shape " 4096 4096"
        for (n = 0; n < count; n++) {
            key = sprintf("k%019d", n % keys)
            printf "ask 0 d%d set %s 0 *%d*%02x\ndrain\n", shape == "1 0" ? 0 : home(key), key, len, n % 256
        }
    }'
}

kilobytes() {
    sets "$@" > "$work/script"
    /usr/bin/time -f %M "$program" play < "$work/script" 2>&1 > "$work/out" | tail -1
}

half=$(kilobytes "4 2" 8000 4000 4096)
all=$(kilobytes "4 2" 8000 8000 4096)
echo "$half $all" | awk '{ printf "8,000 values of 4 KiB at 4 2: %d KB, 4,000 set twice: %d KB, %.2f bytes a value byte\n", $2, $1, ($2 - $1) / (4000 * 4) }'
for shape in "1 0" "4 2"; do
    half=$(kilobytes "$shape" 80000 40000 100)
    all=$(kilobytes "$shape" 80000 80000 100)
    echo "$half $all" | awk -v shape="$shape" '{ printf "80,000 items of 100 bytes at %s: %d KB, 40,000 set twice: %d KB, %.0f bytes an item\n", shape, $2, $1, ($2 - $1) * 1024 / 40000 }'
done

resident() {
    for pid in $pids; do grep VmRSS "/proc/$pid/status"; done | awk '{ sum += $2 } END { print sum }'
}

# Fills a peer that was started, and tells what it holds for an item.
filled() {
    sleep 1
    before=$(resident)
    python3 "$top/bench/memory/fill.py" "$2" "$3" 500000
    sleep 1
    resident | awk -v name="$1" -v before="$before" '{ printf "%s: %.0f bytes an item\n", name, ($1 - before) * 1024 / 500000 }'
    for pid in $pids; do kill "$pid"; done
    pids=
}

printf 'k = 4\nm = 2\nblocks = 16384\nblock = 4096\naddress = "127.0.0.1:21315"\nworkers = 4\n' > "$work/settings.toml"
"$program" serve < "$work/settings.toml" > "$work/served" 2> "$work/notice" & pids=$!
filled "serve 4 2" 21315 memcached
sed 's/^blocks = .*/blocks = 16384/' "$top/examples/machines/member.toml" > "$work/members.toml"
for name in d0 d1 d2 d3 p0 p1; do "$program" member $name < "$work/members.toml" > /dev/null 2> "$work/notice.$name" & pids="$pids $!"; done
sleep 2
filled "six members 4 2" 21200 memcached
if command -v memcached > /dev/null; then
    memcached -u nobody -l 127.0.0.1 -p 21311 -m 1024 & pids=$!
    filled memcached 21311 memcached
fi
if command -v redis-server > /dev/null; then
    for port in 21312 21313 21314; do
        set -- --port $port --bind 127.0.0.1 --save '' --dir "$work"
        if [ $port != 21312 ]; then set -- "$@" --replicaof 127.0.0.1 21312; fi
        redis-server "$@" > /dev/null & pids="$pids $!"
        sleep 1
    done
    sleep 2
    filled "redis with two replicas" 21312 redis
fi
