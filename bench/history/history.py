"""Histories of members under fire: history.py PROGRAM TELLER FOLDER [RUNS [SHAPE [SEED [PLAN]]]]. Each run starts a group of TELLER, which tells what its
members do, under a small load and a plan of bench/machines, and has PROGRAM play and verify what they composed. A line for each run, then a summary."""
import asyncio
import collections
import os
import random
import shutil
import sys
import time

import changed
from check import check
from lines import Bad, read

sys.path.insert(0, os.path.join(os.path.dirname(os.path.abspath(__file__)), "..", "machines"))
from plans import PLANS  # noqa: E402
from run import Run  # noqa: E402

MOST = 300


def main():
    program, teller, folder = sys.argv[1:4]
    runs, shape, seed, plan = (sys.argv[4:] + [None] * 4)[:4]
    runs, shape, seed = int(runs or 10), shape or "4 2", int(seed or time.time())
    total, wrong, plans = collections.Counter(), [], collections.Counter()
    for number in range(seed, seed + runs):
        made = play(program, teller, os.path.join(folder, f"seed-{number}"), shape, number, plan)
        print(f"{number} {made['line']}", flush=True)
        wrong += [number] if made["wrong"] else []
        plans[made["plan"]] += 1
        total.update(made["figures"])
    print(f"{runs - len(wrong)} of {runs} runs of {shape} right; {', '.join(f'{count} {name}' for name, count in sorted(plans.items()))}")
    print(", ".join(f"{name} {count}" for name, count in total.items()))
    sys.exit(1 if wrong else 0)


def play(program, teller, folder, shape, seed, plan):
    """A run, and what its history is worth."""
    os.makedirs(folder)
    run = small(Run(teller, folder, shape, seed, plan or None), seed)
    asyncio.run(run.play())
    group, calls = run.group, [call.row() for call in run.ledger.calls]
    wrong, figures = run.faults[0] if run.faults else "", {}
    texts = read(folder, [each.name for each in group.members])
    measures = (group.k, group.m, group.blocks, group.block)
    try:
        figures = check(program, measures, texts, calls)
        if changed.WANTED:
            figures["changes refused"] = changed.refuse_all(program, measures, texts, seed)
    except Bad as bad:
        wrong = wrong or str(bad)
    if wrong:
        run.keep()
    else:
        shutil.rmtree(folder)
    drawn = f"{run.plan}: {', '.join(run.notes)}: {', '.join(f'{count} {name}' for name, count in figures.items())}"
    return {"line": f"{drawn} {'right' if not wrong else 'WRONG: ' + wrong[:600]}", "wrong": wrong, "plan": run.plan, "figures": figures}


def small(run, seed):
    """A run with few clients and small values, so that its script can be played."""
    rng = random.Random(f"small {seed}")
    run.ledger.most, run.seconds = MOST, 1.0 + rng.random()
    load = run.load
    load.clients, load.depth = rng.choice([(2, 1), (3, 4), (6, 2), (12, 1)])
    load.own = load.own[:load.clients] + [[load.new_key(n, slot, 0) for slot in range(3)] for n in range(len(load.own), load.clients)]
    held = {key.name for keys in load.own for key in keys}
    run.ledger.keys = {name: key for name, key in run.ledger.keys.items() if name in held}
    return run


main()
