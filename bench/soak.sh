#!/bin/sh
# Members for hours, by hand: sh bench/soak.sh [HOURS [PROGRAM]], one hour of groups 4 2 where nothing is said. Without a program it is built first, without a
# proof and with checks (examples/machines/unproved.sh). Each minute a line has the memory of each member. Groups follow one another, each for a third of
# the time and at most two hours; in every second one a member is killed early, and said to be dead. The load's answers are judged each ten minutes.
# The status is 1 where an answer was wrong, a member ended by itself, or memory grew without end (machines/soak.py).
set -eu
top=$(cd "$(dirname "$0")/.." && pwd)
work=$(mktemp -d)
trap 'rm -rf "$work"' EXIT
trap 'exit 1' INT TERM
export PYTHONDONTWRITEBYTECODE=1
program=${2:-$work/built/cocytus_main}
[ $# -gt 1 ] || sh "$top/examples/machines/unproved.sh" "$work/built"
python3 "$top/bench/machines/soak.py" "$program" "${1:-1}"
