"""Groups under fire: kill.py PROGRAM FOLDER [RUNS [SHAPE [SEED [PLAN [JOBS]]]]]. Each run starts a group of the shape ("4 2"), or several of it on the same
machines ("4 2 3" for three), anew, loads it, and does to it what plans.py says, all drawn from its seed; JOBS of them are under way at once. A line of a table for each run; what is needed to look at a wrong one stays
in the folder, under its seed."""
import asyncio
import collections
import functools
import multiprocessing
import os
import resource
import shutil
import signal
import sys
import time

from plans import PLANS
from run import LINEAR, Run

HEAD = """| seed | plan | drawn | acknowledged sets | gets | longest answer, ms | keys with an order | verdict |
|---|---|---|---|---|---|---|---|"""
SUMMED = ("right", "sets", "gets", "counted", "open", "refused", "keys", "undecided", "kept", "empty", "large", "largest", "unpaced",
          "members", "itself")
UNDER_WAY = []


def main():
    signal.signal(signal.SIGTERM, lambda *_: sys.exit(1))  # so that the runs end too
    program, folder = sys.argv[1], sys.argv[2]
    runs, shape, seed, plan, jobs = (sys.argv[3:] + [None] * 5)[:5]
    runs, shape, seed = int(runs or 10), shape or "4 2", int(seed or time.time())
    if plan and plan not in PLANS:
        sys.exit(f"no plan: {plan}; there are: {', '.join(PLANS)}")
    print(f"group {shape}; seeds {seed} to {seed + runs - 1}\n\n{HEAD}", flush=True)
    done, began = [], time.monotonic()
    try:
        with multiprocessing.Pool(int(jobs or 1), may_be_ended) as pool:
            for line, figures in pool.imap_unordered(functools.partial(play, program, folder, shape, plan), range(seed, seed + runs)):
                print(line, flush=True)
                done.append(figures)
    except (KeyboardInterrupt, SystemExit):
        print(f"\nended behind {len(done)} of {runs} runs")
    tell(done, shape, time.monotonic() - began)
    sys.exit(0 if len(done) == runs and all(each["right"] for each in done) else 1)


def may_be_ended():
    """Where a job is ended so are the members of its run."""
    def end(*_):
        if UNDER_WAY:
            UNDER_WAY[-1].group.end()
        os._exit(1)
    signal.signal(signal.SIGINT, signal.SIG_IGN)
    signal.signal(signal.SIGTERM, end)


def play(program, folder, shape, plan, seed):
    """A run: its line, and its figures."""
    folder = os.path.join(folder, f"seed-{seed}")
    os.makedirs(folder)
    run, before = Run(program, folder, shape, seed, plan), processor_seconds()
    UNDER_WAY[:] = [run]
    asyncio.run(run.play())
    if not run.faults:
        shutil.rmtree(folder)
    members, itself = (now - was for now, was in zip(processor_seconds(), before))
    return run.line(), {**run.figures(), "members": members, "itself": itself}


def processor_seconds():
    """What programs that this one started and that ended have used, and what it has used itself."""
    used = [resource.getrusage(who) for who in (resource.RUSAGE_CHILDREN, resource.RUSAGE_SELF)]
    return [each.ru_utime + each.ru_stime for each in used]


def tell(done, shape, seconds):
    """A summary of all runs."""
    total, plans, longest = collections.Counter(), collections.Counter(), collections.Counter()
    for each in done:
        total.update({name: each[name] for name in SUMMED})
        plans[each["plan"]] += 1
        longest[each["plan"]] = max(longest[each["plan"]], round(1000 * each["longest"]))
    print(f"\n{total['right']} of {len(done)} runs of {shape} right, in {seconds:.0f} s, of processors {total['members']:.0f} s of the members and "
          f"{total['itself']:.0f} s of clients, relays and judge: {by_name(plans)}")
    print(f"{total['sets']} sets acknowledged, {total['gets']} gets, {total['counted']} numbers of counters told, {total['open']} calls without "
          f"an answer, {total['refused']} refused for want of room")
    print(f"{total['keys']} keys, of which {total['undecided']} have no order that was found within {LINEAR:.0f} s; "
          f"the longest answers, in ms: {by_name(longest)}")
    print(f"drawn: runs with so many clients: {by_name(counted(done, 'clients'))}; with up to so many requests under way at each: "
          f"{by_name(counted(done, 'depth'))}; {total['unpaced']} unpaced")
    print(f"values: {total['empty']} of no byte, {total['large']} above 64 KiB, {total['largest']} of 1 MiB")
    print(f"{total['kept']} clients that condemned members neither answered nor let go")
    wrong = [each["folder"] for each in done if not each["right"]]
    if wrong:
        print(f"kept: {' '.join(wrong)}")


def counted(done, name):
    return dict(sorted(collections.Counter(each[name] for each in done).items()))


def by_name(numbers):
    return ", ".join(f"{name}: {number}" for name, number in numbers.items())


if __name__ == "__main__":
    main()
