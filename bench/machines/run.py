"""One run of a group under fire: it is started, loaded, hit, read back and judged, all drawn from a seed."""
import asyncio
import os
import random

import linear
from group import Group
from ledger import Ledger
from load import Load
from links import relays_of
from plans import HAUNTING, PLANS

FINISH, READING, LINEAR = 60.0, 240.0, 5.0
# Requests in a second, of all clients; at 0 as fast as they are answered.
PACES = (0, 50, 100, 100, 200, 200, 200, 400, 400, 800, 800, 1600)


class Run:
    """A run of a group, and what is drawn for it."""

    def __init__(self, program, folder, shape, seed, plan):
        self.seed, self.folder, self.rng = seed, folder, random.Random(seed)
        k, m, groups = ([int(each) for each in shape.split()] + [1])[:3]
        self.plan = plan or self.rng.choice(list(PLANS))
        # A lost value is decoded block by block: where values are large, blocks of 256 bytes would make a loss last a minute.
        most, blocks = self.rng.choice([(4_096, [256, 1024, 4096]), (65_536, [1024, 4096, 16_384]), (1_048_576, [16_384, 65_536])])
        block = self.rng.choice(blocks)
        # Members let their clients go soon where that is waited for; else a machine that other work has would make them.
        patience = 5 if self.plan in HAUNTING else 60
        self.group = Group(program, folder, k, m, block, 2**26 // block, patience, groups)
        self.ledger = Ledger(seed, most)
        self.seconds = 2.0 + 3.0 * self.rng.random()
        # No more than 400 requests under way: a build with checks answers some 100 a second.
        clients, depth = self.rng.choice([(1, 16), (4, 4), (4, 16), (12, 4), (12, 16), (30, 1), (30, 4), (80, 1), (80, 4), (200, 1), (200, 2)])
        gets, leaving = self.rng.choice([10, 50, 90]), 100 if self.plan == "leave" else 0
        self.load = Load(self.group, self.ledger, seed, clients, depth, gets, leaving, self.rng.choice(PACES))
        self.notes, self.faults, self.undecided, self.kept = [], [], 0, 0
        self.relays = {}

    async def play(self):
        try:
            await self.start()
            tasks = self.load.start()
            await asyncio.sleep(self.rng.random() * self.seconds / 2)
            await PLANS[self.plan](self)
            await asyncio.sleep(self.seconds / 3)
            self.faults += await self.load.finish(tasks, FINISH)
            shown = await self.load.read_back(READING)
            self.ledger.judge_counters(shown)
            self.faults += await self.group.idle()
            self.faults += self.group.faults()
        except Exception as wrong:
            self.faults += [f"{type(wrong).__name__}: {wrong}", *self.group.faults()]
        finally:
            self.group.end()
        self.faults += self.ledger.faults
        self.judge_orders()
        if self.faults:
            self.keep()

    async def start(self):
        relays = await relays_of(self)
        absent = self.rng.choice(self.group.members) if self.plan == "absent" else None
        if absent is not None:
            self.notes.append(f"without {absent.name}")
        await self.group.start_all(relays, absent)
        await self.load.open_counters(self.group.living()[0])

    def judge_orders(self):
        """By the record alone, whether the calls of each key have an order."""
        bad, late = linear.judge([call.row() for call in self.ledger.calls], LINEAR)
        self.faults += [f"{key}: its calls have no order" for key in bad]
        self.undecided = len(late)

    def figures(self):
        """Whether it was right, its plan, and what is summed up."""
        calls = self.ledger.calls
        told = sum(call.kind == "incr" and call.key in self.load.counters and call.end is not None for call in calls)
        ledger, load = self.ledger, self.load
        return {"right": int(not self.faults), "plan": self.plan, "folder": self.folder, "sets": ledger.sets, "gets": ledger.gets,
                "refused": ledger.refusals, "counted": told, "open": sum(call.end is None for call in calls),
                "keys": len({call.key for call in calls}), "undecided": self.undecided, "kept": self.kept, "longest": ledger.longest,
                "empty": ledger.empty, "large": ledger.large, "largest": ledger.largest, "clients": load.clients, "depth": load.depth,
                "unpaced": int(not load.pace)}

    def line(self):
        made = f"{self.plan}: {', '.join(self.notes)}" if self.notes else self.plan
        pace = f"{self.load.pace} a second" if self.load.pace else "unpaced"
        drawn = (f"{self.load.clients} clients, {self.load.depth} deep, {pace}, values to {self.ledger.most}, {self.load.gets} of 100 gets, "
                 f"blocks of {self.group.block}")
        verdict = "right" if not self.faults else f"WRONG: {self.faults[0][:300]}"
        return (f"| {self.seed} | {made} | {drawn} | {self.ledger.sets} | {self.ledger.gets} | {1000 * self.ledger.longest:.0f} | "
                f"{self.undecided or 'all'} | {verdict} |")

    def keep(self):
        """Keeps what is needed to look at this run: what members said is there already."""
        self.ledger.write(os.path.join(self.folder, "record"))
        with open(os.path.join(self.folder, "faults"), "w") as text:
            text.write(self.line() + "\n" + "\n".join(self.faults) + "\n")
