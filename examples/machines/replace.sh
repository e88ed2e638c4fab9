#!/bin/sh
# A group of six members on this machine, of which two are killed under load, and whose items are then carried into a fresh group of six: sh
# examples/machines/replace.sh [PROGRAM]. Without a program it is built first, without a proof (unproved.sh). The status is 0 only where every value is read back at the
# fresh group with its flags, and no cas number fell.
set -eu
here=$(cd "$(dirname "$0")" && pwd)
work=$(mktemp -d)
trap 'rm -rf "$work"' EXIT
program=${1:-$work/cocytus_main}
[ $# -gt 0 ] || { echo "building, without a proof"; sh "$here/unproved.sh" "$work"; }
python3 "$here/replace.py" "$program" "$here/member.toml"
