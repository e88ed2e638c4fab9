#!/usr/bin/env bash
# Tries wrong bodies of crates, by hand, when a contract has changed: bench/plants.sh NAME..
# First those that the toolchain makes (`rt plant`: each line `proves` is a contract to strengthen), then the edits
# under bench/plants/NAME, which the prover must refuse like those that stand in the crate's must-fail/.
set -eu
cd "$(dirname "$0")/.."
[ $# -gt 0 ] || { echo "usage: bench/plants.sh NAME.."; exit 2; }
copy=$(mktemp -d)
trap 'rm -rf "$copy"' EXIT
for name in "$@"; do
  echo "== $name"
  (cd "crates/$name" && rt plant)
  # the edits are tried in a copy, whose checks begin with what those here kept
  git ls-files -z crates.txt HANDLES crates | xargs -0 cp --parents -t "$copy"
  [ ! -d "bench/plants/$name" ] || { mkdir -p "$copy/crates/$name/must-fail" && cp bench/plants/"$name"/*.edit "$copy/crates/$name/must-fail/"; }
  (cd "$copy" && { [ -d .git ] || git init -q; } && rt must-fail "$name")
done
