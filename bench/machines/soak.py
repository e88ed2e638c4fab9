"""Groups of members for hours: soak.py PROGRAM [HOURS [SHAPE]]. Groups follow one another, each for a third of the time, at most two hours. A group idles for
20 s, is loaded, and idles again; in every second one a member is killed in the first sixth of its time, and said to be dead. The load comes in turns of at most
ten minutes: then all is read back and judged as in kill.py, and its keys are deleted. A line of each member's resident memory each minute.

Memory that grows without end is told so: where the least of a member's last quarter of a group's time is more than 2 MiB above the most of its second quarter.
The status is 1 then, and where an answer was wrong or a member ended by itself."""
import asyncio
import os
import signal
import sys
import tempfile
import time

import linear
from connection import Connection, delete_of
from group import Group
from ledger import Ledger
from load import Load

IDLE, TICKS = 20.0, os.sysconf("SC_CLK_TCK")
LONGEST, TURN, SAMPLE, TOLD, PACE, GROWTH = 7200.0, 600.0, 5.0, 60.0, 500, 2.0


def used(member):
    """Ticks of a processor that a member has used."""
    with open(f"/proc/{member.program.pid}/stat") as text:
        fields = text.read().rsplit(") ", 1)[1].split()
    return int(fields[11]) + int(fields[12])


def resident(member):
    """Its resident memory, in MiB."""
    with open(f"/proc/{member.program.pid}/status") as text:
        return next((int(line.split()[1]) for line in text if line.startswith("VmRSS:")), 0) / 1024


def row(name, values):
    print(f"| {name} | " + " | ".join("-" if each is None else f"{each:.2f}" for each in values) + " |", flush=True)


class Soak:
    """A group for some time. `memory` has samples of each member that lives."""

    def __init__(self, program, folder, seconds, shape, number):
        k, m = (int(each) for each in shape.split())
        self.group = Group(program, folder, k, m, 4_096, 16_384)
        self.seconds, self.number, self.memory, self.faults = seconds, number, [], []
        self.ledger, self.sets, self.gets, self.longest = Ledger(number, 65_536), 0, 0, 0.0

    async def play(self):
        try:
            await self.group.start_all()
            await self.tell_idle("a processor, of 100, idle before")
            began = time.monotonic()
            watch, hit = asyncio.create_task(self.watch(began)), asyncio.create_task(self.hit())
            while (left := began + self.seconds - time.monotonic()) > 1.0:
                await self.turn(min(left, TURN))
            watch.cancel()
            await hit
            await self.tell_idle("a processor, of 100, idle behind")
            self.faults += self.group.faults()
        finally:
            self.group.end()
        self.judge_memory()

    async def tell_idle(self, name):
        """What each member uses of a processor, in parts of 100."""
        living, began = self.group.living(), time.monotonic()
        before = [used(each) for each in living]
        await asyncio.sleep(IDLE)
        parts = {each: 100 * (used(each) - was) / TICKS / (time.monotonic() - began) for each, was in zip(living, before)}
        row(name, [parts.get(each) for each in self.group.members])

    async def watch(self, began):
        """Samples of memory, of which one a minute is told."""
        told = 0
        while True:
            self.memory.append({each.name: resident(each) for each in self.group.living()})
            if time.monotonic() - began >= told * TOLD:
                told += 1
                row(f"MiB, {time.monotonic() - began:.0f} s, {self.sets + self.ledger.sets} sets", [self.memory[-1].get(each.name) for each in self.group.members])
            await asyncio.sleep(SAMPLE)

    async def hit(self):
        """Kills a member of every second group, and says so half a second later."""
        if self.number % 2 == 0:
            await asyncio.sleep(self.seconds / 8)
            member = self.group.members[self.number // 2 % len(self.group.members)]
            self.group.kill(member)
            await asyncio.sleep(0.5)
            await self.group.condemn([member], self.group.living()[0])
            print(f"{member.name} was killed", flush=True)

    async def turn(self, seconds):
        """A load for some time, which is read back and judged; then its keys are deleted."""
        self.ledger = ledger = Ledger(self.number, 65_536)
        load = Load(self.group, ledger, self.number, clients=24, depth=4, gets=50, leaving=5, pace=PACE)
        await load.open_counters(self.group.living()[0])
        tasks = load.start()
        await asyncio.sleep(seconds)
        self.faults += await load.finish(tasks, 60)
        ledger.judge_counters(await load.read_back(120))
        self.faults += await self.group.idle() + ledger.faults
        bad, _ = linear.judge([call.row() for call in ledger.calls], 20.0)
        self.faults += [f"{key}: its calls have no order" for key in bad]
        self.longest = max(self.longest, ledger.longest)
        at = await Connection.open(self.group.living()[-1], ledger)
        for key in [*ledger.keys, *load.counters, *load.shared]:
            await at.exchange([delete_of(ledger.begin(-1, "delete", key))])
        at.leave()
        self.sets, self.gets, self.ledger = self.sets + ledger.sets, self.gets + ledger.gets, Ledger(self.number, 65_536)

    def judge_memory(self):
        for each in self.group.living():
            samples = [sample[each.name] for sample in self.memory if each.name in sample]
            quarter = len(samples) // 4
            if quarter and min(samples[-quarter:]) > max(samples[quarter:2 * quarter]) + GROWTH:
                self.faults.append(f"the memory of {each.name} grows: {max(samples[quarter:2 * quarter]):.1f} and then {min(samples[-quarter:]):.1f} MiB")


def main():
    signal.signal(signal.SIGTERM, lambda *_: sys.exit(1))  # so that the members end too
    program, hours, shape = (sys.argv[1:] + [None] * 2)[:3]
    left, number, faults = 3600 * float(hours or 1), 0, []
    life = min(left / 3, LONGEST)
    while left > 1.0:
        with tempfile.TemporaryDirectory() as folder:
            soak = Soak(program, folder, min(left, life), shape or "4 2", number)
            print(f"\n| group {number + 1} | " + " | ".join(each.name for each in soak.group.members) + " |\n|---|" + "---|" * len(soak.group.members))
            asyncio.run(soak.play())
        print(f"{soak.sets} sets acknowledged, {soak.gets} gets, the longest answer {1000 * soak.longest:.0f} ms; {len(soak.faults)} faults", flush=True)
        print("\n".join(soak.faults[:10]), end="\n" if soak.faults else "")
        faults, left, number = faults + soak.faults, left - life, number + 1
    sys.exit(1 if faults else 0)


if __name__ == "__main__":
    main()
