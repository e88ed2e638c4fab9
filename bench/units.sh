#!/bin/sh
# The units of examples/systemd under `systemd-analyze`, by hand: sh bench/units.sh. Each has to verify without a word, and its exposure, of 10 at most,
# may not be above 3. Programs and settings that a unit names are put where it looks for them, in a folder of its own.
set -eu
top=$(cd "$(dirname "$0")/.." && pwd)
work=$(mktemp -d)
trap 'rm -rf "$work"' EXIT
wrong=0
for unit in "$top"/examples/systemd/*.service; do
    name=$(basename "$unit" | sed 's/@/@d0/')
    sed "s#ExecStart=[^ ]*#ExecStart=$(command -v true)#" "$unit" > "$work/$name"
    said=$(systemd-analyze verify "$work/$name" 2>&1) || wrong=1
    [ -z "$said" ] || { wrong=1; echo "$said"; }
    systemd-analyze security --offline=yes --threshold=30 "$work/$name" > "$work/said" 2>&1 || wrong=1
    tail -1 "$work/said"
done
exit "$wrong"
