#!/bin/sh
# Groups of members under fire, by hand: sh bench/kill.sh [RUNS [SHAPE [PROGRAM]]], 10 runs of "4 2" where nothing is said; "4 2 3" has three groups of
# the shape on the same members. Without a program it is
# built first, without a proof and with checks (examples/machines/unproved.sh). Each run starts a group on this machine anew, loads it, and kills,
# stops, slows or cuts off members, by a plan drawn from its seed (machines/README.md); then every key is read at each member that lives, and the
# clients' records are judged (machines/linear.py, which is tried first). A line for each run, then a summary; the status is 1 where a run was wrong.
# SEED=17 begins with that seed, PLAN="cut a link" plays one plan, JOBS=4 has four runs at once (as many as there are processors where nothing is said),
# KEEP=FOLDER has what is kept of wrong runs; ORDER=keys has members whose settings have that order.
set -eu
top=$(cd "$(dirname "$0")/.." && pwd)
here=$top/bench/machines
keep=${KEEP:-$(mktemp -d)}
work=$(mktemp -d)
trap 'rm -rf "$work"' EXIT
trap 'exit 1' INT TERM
export PYTHONDONTWRITEBYTECODE=1
python3 "$here/linear.py" --test
program=${3:-$work/built/cocytus_main}
[ $# -gt 2 ] || sh "$top/examples/machines/unproved.sh" "$work/built"
ulimit -n 4096 2> /dev/null || true
python3 "$here/kill.py" "$program" "$keep" "${1:-10}" "${2:-4 2}" "${SEED:-$(date +%s)}" "${PLAN:-}" "${JOBS:-$(nproc)}"
rmdir "$keep" 2> /dev/null || true
