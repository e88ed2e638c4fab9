#!/bin/sh
# Requests a second and times of memcached -t 4, of `serve` 4 2 and of redis with two replicas (WAIT 2 behind each set), in turn over
# loopback, with the checking client of bench/load: sh bench/serve.sh [SECONDS of a cell] [PROGRAM]. Then what an idle `serve` uses.
# By hand, over the executable that `rt run` leaves. Debian's memcached and redis are installed where they are missing.
# ONLY=members measures a group 4 2 of six programs, with all connections at one of them; ORDER=keys has that order in their settings.
# ONLY=serve (or memcached, redis, several of them) measures these servers alone, CELLS="90 100 1 4" that cell alone: gets of 100, bytes, depth, connections.
# IDLE=0 leaves out the idle minute.
set -eu
here=$(cd "$(dirname "$0")" && pwd)
seconds=${1:-2}
program=${2:-$here/../crates/cocytus_main/out/cocytus_main}
only=${ONLY:-memcached serve redis}
idle=${IDLE:-60}
port=21211
work=$(mktemp -d)
pids=
stop() {
    for pid in $pids; do kill "$pid" 2> /dev/null || true; done
    for pid in $pids; do wait "$pid" 2> /dev/null || true; done
    pids=
}
trap 'stop; rm -rf "$work"' EXIT
trap 'exit 1' INT TERM

for package in memcached redis-server; do
    if echo "$only" | grep -q "${package%-server}" && ! command -v "$package" > /dev/null; then apt-get install -y "$package" > /dev/null; fi
done
rustc --edition 2024 -O -o "$work/load" "$here/load/main.rs"

# Waits until something listens on the port, ten seconds at most.
reach() {
    for _ in $(seq 100); do
        if "$work/load" 127.0.0.1:$port --connections 1 --keys 1 --gets 100 --seconds 0.01 "$@" > /dev/null 2>&1; then return; fi
        sleep 0.1
    done
    echo "nothing listens on port $port" >&2
    exit 1
}

start() {
    case $1 in
    memcached)
        memcached -u nobody -l 127.0.0.1 -p $port -t 4 -c 4096 -m 2048 & pids=$!
        reach ;;
    serve)
        printf 'k = 4\nm = 2\nblocks = 16384\nblock = 4096\naddress = "127.0.0.1:%d"\nworkers = 4\n' $port > "$work/settings.toml"
        "$program" serve < "$work/settings.toml" > "$work/served" 2> "$work/notice" & pids=$!
        reach ;;
    members)
        sed -e "1i order = \"${ORDER:-strict}\"" -e "s/127.0.0.1:21200/127.0.0.1:$port/" -e 's/^blocks = .*/blocks = 16384/' "$here/../examples/machines/member.toml" > "$work/members.toml"
        for name in d0 d1 d2 d3 p0 p1; do "$program" member $name < "$work/members.toml" > /dev/null 2> "$work/notice.$name" & pids="$pids $!"; done
        reach ;;
    redis)
        redis_of $port; redis_of $((port + 1)) --replicaof 127.0.0.1 $port; redis_of $((port + 2)) --replicaof 127.0.0.1 $port
        for _ in $(seq 200); do
            if [ "$(redis-cli -p $port info replication 2> /dev/null | grep -c state=online)" = 2 ]; then break; fi
            sleep 0.1
        done
        reach --redis 2 ;;
    esac
}

redis_of() {
    at=$1
    shift
    redis-server --bind 127.0.0.1 --port "$at" --save '' --appendonly no --dir "$work" --repl-diskless-sync-delay 0 "$@" > "$work/redis.$at" & pids="$pids $!"
}

# Processor seconds that the servers have used.
used() {
    for pid in $pids; do cat "/proc/$pid/stat"; done | sed 's/.*) //' | awk -v ticks="$(getconf CLK_TCK)" '{ sum += $12 + $13 } END { printf "%.2f\n", sum / ticks }'
}

# What the servers hold in memory, KiB.
resident() {
    for pid in $pids; do cat "/proc/$pid/status"; done | awk '/^VmRSS/ { sum += $2 } END { print sum }'
}

# A line of results: the server, the cell, then the words of the client, the memory and the processor seconds of the servers.
measure() {
    server=$1 gets=$2 size=$3 depth=$4 connections=$5
    shift 5
    if [ "$server" = redis ]; then set -- --redis 2; fi
    before=$(used)
    line=$("$work/load" 127.0.0.1:$port --gets "$gets" --size "$size" --depth "$depth" --connections "$connections" --threads 4 --seconds "$seconds" "$@" 2>> "$work/faults") || true
    echo "$server $gets $size $depth $connections $line resident $(resident) server_cpu_s $(used) $before" >> "$work/results"
}

cells() {
    if [ -n "${CELLS:-}" ]; then
        echo "$CELLS"
    else
        for gets in 90 0; do for size in 100 4096; do for depth in 1 16; do for connections in 1 4 16; do echo "$gets $size $depth $connections"; done; done; done; done
        for gets in 90 0; do for connections in 64 1000; do echo "$gets 100 1 $connections"; done; done
    fi
}

for server in $only; do
    start "$server"
    cells | while read -r gets size depth connections; do measure "$server" "$gets" "$size" "$depth" "$connections"; done
    if [ "$server" = serve ] && [ "$idle" -gt 0 ]; then
        sleep 2
        before=$(used)
        sleep "$idle"
        echo "$(used) $before" | awk -v idle="$idle" '{ printf "idle serve 4 2, %d s: %.2f s of a processor, %.2f of 100\n", idle, $1 - $2, 100 * ($1 - $2) / idle }' > "$work/idle"
    fi
    stop
done

echo "requests a second; microseconds of the middle and of the 99th of 100, and the longest; microseconds of a processor for a request, of the"
echo "client and of the servers (filling and reading back of 10,000 keys counted); KiB of the servers' memory behind the cell"
awk '
    BEGIN { printf "%10s %5s %6s %6s %12s %10s %8s %8s %9s %7s %7s %8s  %s\n", "server", "gets", "bytes", "depth", "connections", "a second", "p50", "p99", "longest", "client", "server", "KiB", "faults" }
    { for (i = 6; i < NF; i += 2) of[$i] = $(i + 1); server = of["server_cpu_s"] - $NF
      faults = of["errors"] + of["wrong"] + of["missing"] + of["lost"]
      printf "%10s %5d %6d %6d %12d %10d %8.1f %8.1f %9d %7.2f %7.2f %8d  %s\n", $1, $2, $3, $4, $5, of["a_second"], of["p50_us"], of["p99_us"], of["max_us"], of["client_cpu_s"] * 1e6 / of["requests"], server * 1e6 / (of["requests"] + 20000), of["resident"], faults ? faults : "none" }' "$work/results"
awk '
    { for (i = 6; i < NF; i += 2) of[$i] = $(i + 1); cell = sprintf("%5d %6d %6d %12d", $2, $3, $4, $5)
      if (!(cell in seen)) { seen[cell]; order[++many] = cell } rate[$1, cell] = of["a_second"] }
    function over(a, b) { return a && b ? sprintf("%.2f", a / b) : "-" }
    END { printf "\n%5s %6s %6s %12s %17s %13s\n", "gets", "bytes", "depth", "connections", "serve/memcached", "serve/redis"
          for (i = 1; i <= many; i++) printf "%s %17s %13s\n", order[i], over(rate["serve", order[i]], rate["memcached", order[i]]), over(rate["serve", order[i]], rate["redis", order[i]]) }' "$work/results"
cat "$work/faults" >&2
if [ -f "$work/idle" ]; then cat "$work/idle"; fi
