#!/bin/sh
# What a group of members did under fire, checked by hand: sh bench/history.sh [--test] [RUNS [SHAPE [PROGRAM [TELLER]]]], 5 runs of "4 2" where nothing
# is said. Each run starts a group of TELLER, whose members tell each call of theirs, loads it, and does what a plan of bench/machines says. The histories
# are composed to one script, as docs/MACHINES.md says; PROGRAM plays it and has to give every answer that the members gave, and to verify its own
# transcript. With --test each right history is changed in up to sixteen ways, each of which has to be refused. Without a program it is built first,
# without a proof and with checks, and so is the one that tells, from a copy of the crates (history/tell.py).
# SEED=17, PLAN="kill" and KEEP=FOLDER as in bench/kill.sh.
set -eu
top=$(cd "$(dirname "$0")/.." && pwd)
export CHANGED=
if [ "${1:-}" = --test ]; then
    export CHANGED=yes
    shift
fi
work=$(mktemp -d)
keep=${KEEP:-$(mktemp -d)}
trap 'rm -rf "$work"' EXIT
trap 'exit 1' INT TERM
export PYTHONDONTWRITEBYTECODE=1
program=${3:-$work/built/cocytus_main}
teller=${4:-$work/telling/cocytus_main}
[ $# -gt 2 ] || sh "$top/examples/machines/unproved.sh" "$work/built"
if [ $# -lt 4 ]; then
    mkdir -p "$work/copy/examples"
    cp -r "$top/crates" "$top/crates.txt" "$top/HANDLES" "$work/copy/"
    cp -r "$top/examples/machines" "$work/copy/examples/"
    python3 "$top/bench/history/tell.py" "$work/copy"
    sh "$work/copy/examples/machines/unproved.sh" "$work/telling"
fi
ulimit -n 4096 2> /dev/null || true
python3 "$top/bench/history/history.py" "$program" "$teller" "$keep" "${1:-5}" "${2:-4 2}" "${SEED:-$(date +%s)}" "${PLAN:-}"
rmdir "$keep" 2> /dev/null || true
