#!/bin/sh
# Six members on this machine, with bases and without, that are closed, listed, opened and moved (closing/closing.py): sh bench/closing.sh [PROGRAM], by hand,
# a minute or two. Without a program it is built first, without a proof. The status is 0 only where every answer was right.
set -eu
here=$(cd "$(dirname "$0")" && pwd)
work=$(mktemp -d)
trap 'rm -rf "$work"' EXIT
trap 'exit 1' INT TERM
program=${1:-$work/cocytus_main}
[ $# -gt 0 ] || sh "$here/../examples/machines/unproved.sh" "$work"
for base in "" "100000, 200000, 4611686018427387904, 0"; do
    sed "s/127.0.0.1:/127.0.9.1:/; s/^patience = .*/patience = 60\\nbase = [$base]/" "$here/../examples/machines/member.toml" > "$work/member.toml"
    [ -n "$base" ] || sed -i '/^base = /d' "$work/member.toml"
    python3 "$here/closing/closing.py" "$program" "$work/member.toml" "$base"
done
