#!/bin/sh
# Six members of a group on this machine over etcd, of which two are killed and nobody says so: sh examples/etcd/run.sh [PROGRAM]. Without a program
# it is built first, without a proof (../machines/unproved.sh). The status is 0 only where every value that was stored is read back. It needs
# Debian's etcd-server, etcd-client and netcat-openbsd, and starts an etcd of its own, on ports 21500 and 21501.
set -eu
here=$(cd "$(dirname "$0")" && pwd)
work=$(mktemp -d)
server=
trap 'if [ -n "$server" ]; then kill "$server"; wait "$server" 2> /dev/null || true; fi; rm -rf "$work"' EXIT
trap 'exit 1' INT TERM
for tool in etcd etcdctl nc; do
    command -v "$tool" > /dev/null || { echo "there is no $tool: apt-get install etcd-server etcd-client netcat-openbsd" >&2; exit 1; }
done
program=${1:-$work/built/cocytus_main}
[ $# -gt 0 ] || { echo "building, without a proof"; sh "$here/../machines/unproved.sh" "$work/built"; }
export ETCDCTL_ENDPOINTS=http://127.0.0.1:21500 ETCDCTL_API=3
etcd --data-dir "$work/etcd" --log-level error --listen-client-urls "$ETCDCTL_ENDPOINTS" --advertise-client-urls "$ETCDCTL_ENDPOINTS" \
    --listen-peer-urls http://127.0.0.1:21501 --initial-advertise-peer-urls http://127.0.0.1:21501 \
    --initial-cluster default=http://127.0.0.1:21501 2> "$work/etcd.txt" &
server=$!
until etcdctl endpoint health > /dev/null 2>&1; do
    kill -0 "$server" 2> /dev/null || { cat "$work/etcd.txt" >&2; server=; exit 1; }
    sleep 0.2
done
python3 "$here/watched.py" "$program" "$here/../machines/member.toml"
