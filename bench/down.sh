#!/usr/bin/env bash
# What a served group takes of a processor once it is down, by hand: bench/down.sh PROGRAM. PROGRAM is the proved
# cocytus_main. More than m processes are stopped by the order of a client, and then the processor's time of three
# seconds is read. A deliverer that takes the answer `down` for a delivery takes a whole core.
set -eu
program=${1:?down.sh PROGRAM}
port=${2:-11399}
work=$(mktemp -d)
settings="$work/group.toml"
sed -e "s/^address = .*/address = \"127.0.0.1:$port\"/" -e 's/^control = .*/control = true/' "$(dirname "$0")/../examples/group.toml" > "$settings"
"$program" serve < "$settings" > "$work/out" &
served=$!
trap 'kill $served 2> /dev/null; rm -rf "$work"' EXIT
for _ in $(seq 50); do
  grep -q listening "$work/out" && break
  sleep 0.1
done
ticks() { awk '{ print $14 + $15 }' "/proc/$served/stat"; }
told() { python3 - "$port" "$@" <<'PYTHON'
import socket, sys
with socket.create_connection(("127.0.0.1", int(sys.argv[1]))) as link:
    for line in sys.argv[2:]:
        link.sendall(line.encode() + b"\r\n")
        print(link.recv(4096).decode().strip())
PYTHON
}
sleep 1
before=$(ticks); sleep 3; after=$(ticks)
echo "whole: $((after - before)) of 300 ticks"
told "cocytus_fail d0 0" "cocytus_fail d1 0" "cocytus_fail d2 0" "get a"
sleep 1
before=$(ticks); sleep 3; after=$(ticks)
echo "down: $((after - before)) of 300 ticks"
[ $((after - before)) -lt 60 ] || { echo "a group that is down takes a core"; exit 1; }
