#!/bin/sh
# Six members of a group on this machine, of which two are killed: sh examples/machines/run.sh [PROGRAM]. Without a program it is built
# first, without a proof (unproved.sh). The status is 0 only where every value that was stored is read back.
set -eu
here=$(cd "$(dirname "$0")" && pwd)
work=$(mktemp -d)
trap 'rm -rf "$work"' EXIT
program=${1:-$work/cocytus_main}
[ $# -gt 0 ] || { echo "building, without a proof"; sh "$here/unproved.sh" "$work"; }
python3 "$here/members.py" "$program" "$here/member.toml"
