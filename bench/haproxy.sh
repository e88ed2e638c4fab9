#!/bin/sh
# A group behind HAProxy, of which a member is killed, another is condemned alive, and one hangs, all under load, by hand: sh bench/haproxy.sh [PROGRAM].
# A line for each says what clients saw. Without a program it is built first, without a proof. It needs Debian's haproxy.
set -eu
top=$(cd "$(dirname "$0")/.." && pwd)
work=$(mktemp -d)
trap 'rm -rf "$work"' EXIT
trap 'exit 1' INT TERM
program=${1:-$work/built/cocytus_main}
[ $# -gt 0 ] || sh "$top/examples/machines/unproved.sh" "$work/built"
python3 "$top/bench/haproxy/trials.py" "$program" "$top/examples/machines/member.toml" "$top/examples/haproxy/haproxy.cfg"
