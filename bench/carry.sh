#!/bin/sh
# Groups whose items are carried into fresh ones, by hand: sh bench/carry.sh [RUNS [SHAPE [PROGRAM]]], three runs of "4 2" where nothing is said. Without a program it is
# built first, without a proof and with checks (examples/machines/unproved.sh). Each run loads a group, kills up to m of its members, starts a fresh group with bases, has
# `carry` carry the items while the load waits, and goes on with the load at the fresh group; then each acknowledged value, its flags and its end are read back, and no cas
# number may have fallen (machines/carry.py). SEED=17 begins with that seed.
set -eu
top=$(cd "$(dirname "$0")/.." && pwd)
work=$(mktemp -d)
trap 'rm -rf "$work"' EXIT
trap 'exit 1' INT TERM
export PYTHONDONTWRITEBYTECODE=1
program=${3:-$work/built/cocytus_main}
[ $# -gt 2 ] || sh "$top/examples/machines/unproved.sh" "$work/built"
python3 "$top/bench/machines/carry.py" "$program" "$work/runs" "${1:-3}" "${2:-4 2}" "${SEED:-$(date +%s)}"
