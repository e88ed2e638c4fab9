#!/bin/sh
# Schedules of members side by side, each played on a World beside them, by hand: sh bench/member.sh [SCHEDULES [STEPS]]. The program is built
# without a proof; it writes how often members did what, and fails where the machine did anything otherwise.
set -eu
top=$(cd "$(dirname "$0")/.." && pwd)
work=$(mktemp -d)
trap 'rm -rf "$work"' EXIT
sh "$top/bench/stand" "$work" member_bench
cd "$work/crates/member_bench"
rt try --steps 1000000000000 --seconds 36000 -- "${1:-2000}" "${2:-500}"
