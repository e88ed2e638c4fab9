#!/bin/sh
# Random messages judged by a node's `may_come` and by an independent model, by hand: sh bench/judged.sh MODEL [N [SEED]]. MODEL is the folder of the
# model: check.rs (with `check_fits`), explore.rs, induct.rs, script.rs and world.rs. N messages, 10,000 where none are told, between the
# events of random groups; nine of ten are changed. The program is built with checks and without a proof, and has ten minutes: half an hour
# of a busy machine may pass.
set -eu
model=${1:?judged.sh MODEL [N [SEED]]}
count=${2:-10000}
seed=${3:-1}
top=$(cd "$(dirname "$0")/.." && pwd)
work=$(mktemp -d)
trap 'rm -rf "$work"' EXIT
mkdir -p "$work/model"
cp "$top/bench/judged/judged.rs" "$work/model/"
for name in explore induct script world; do
    cp "$model/$name.rs" "$work/model/"
done
sed 's/^fn check_fits/pub &/' "$model/check.rs" > "$work/model/check.rs"
rustc --edition 2021 -O -A warnings -o "$work/model/judged" "$work/model/judged.rs"
"$work/model/judged" "$count" "$work/told" "$seed" > "$work/script"

sh "$top/bench/stand" "$work" judged_bench
(cd "$work/crates/judged_bench" && rt try --steps 1000 --seconds 600 < "$work/script" > "$work/answers" 2> "$work/log.txt") || { tail -20 "$work/log.txt"; exit 1; }

[ "$(wc -l < "$work/answers")" -eq "$(wc -l < "$work/told")" ] || { echo 'not every message was judged' >&2; tail -5 "$work/log.txt" >&2; exit 1; }
paste -d' ' "$work/answers" "$work/told" | awk '
    $1 != $2 { wrong++; print "differs: " $0 }
    { verdicts[$2]++; if ($6 == "sender") { alone++; by[$3]++ } else by[$3] += 0 }
    { kinds[$3]++; if ($2 == "yes") fits[$3]++ }
    END {
        printf "%d messages: yes %d, no %d, of these %d for the sender alone; %d differ\n", NR, verdicts["yes"], verdicts["no"], alone, wrong
        for (kind in kinds) printf "%-9s yes %5d, no %5d, for the sender alone %4d\n", kind, fits[kind], kinds[kind] - fits[kind], by[kind]
        exit wrong > 0
    }'
