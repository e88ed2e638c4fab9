#!/bin/sh
# Keepers and watchers of examples/etcd and then the command `watch`, by hand: sh bench/etcd.sh [PROGRAM [TRIAL..]]. Members are killed alone, with what
# keeps their leases, two at once and three; etcd is killed and started again, hangs for a minute, and hangs for about as long as a lease lasts; what
# watches starts before members, starts again, and runs twice for each member. Without a program it is built first, without a proof. It needs Debian's etcd-server, etcd-client and netcat-openbsd.
set -eu
top=$(cd "$(dirname "$0")/.." && pwd)
work=$(mktemp -d)
trap 'rm -rf "$work"' EXIT
trap 'exit 1' INT TERM
program=${1:-$work/built/cocytus_main}
if [ $# -gt 0 ]; then shift; else sh "$top/examples/machines/unproved.sh" "$work/built"; fi
status=0
python3 "$top/bench/etcd/trials.py" "$program" "$top/examples/machines/member.toml" "$@" || status=1
python3 "$top/bench/etcd/commands.py" "$program" "$top/examples/machines/member.toml" "$@" || status=1
exit "$status"
