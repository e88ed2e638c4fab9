"""What clients see of a member that dies without a word: silence.py PROGRAM [SHAPE]. A data process and a parity process end by kill -9, or hang by SIGSTOP; for
some seconds nobody says so, and then it is said. A row for each: what became of the connections at it, what came of a connection made then, and of calls at
the others: answered, with the longest in ms, waiting, or let go. Behind the word: how many ms later the last call that had waited was answered."""
import asyncio
import signal
import sys
import tempfile
import time

from connection import Connection, Gone, get_of, set_of
from group import Group
from ledger import Key, Ledger

UNSAID = 6.0


def home_of(key, k):
    """The index of the data process that has a key: FNV-1a of 32 bits."""
    number = 0x811C9DC5
    for byte in key.encode():
        number = (number ^ byte) * 0x01000193 & 0xFFFFFFFF
    return number % k


class Calls:
    """A client at a member that makes one kind of call on one key again and again."""

    def __init__(self, ledger, member, kind, key):
        self.ledger, self.member, self.kind, self.key = ledger, member, kind, key
        self.begun, self.longest, self.count, self.state = None, 0.0, 0, "open"

    async def run(self):
        try:
            at = await Connection.open(self.member, self.ledger)
            while True:
                self.begun = time.monotonic()
                await at.exchange([self.request()])
                self.longest, self.begun = max(self.longest, time.monotonic() - self.begun), None
                self.count += 1
                await asyncio.sleep(0.02)
        except Gone:
            self.state, self.begun = "broken", None

    def request(self):
        if self.kind == "get":
            return get_of([self.ledger.begin(0, "get", self.key.name)])
        version = self.key.sent + 1
        return set_of(self.ledger.begin(0, "set", self.key.name, version), version, b"")

    def waits(self):
        return self.begun is not None and time.monotonic() - self.begun > UNSAID / 2


class Silence:
    def __init__(self, program, folder, shape):
        k, m = (int(each) for each in shape.split())
        self.group, self.ledger, self.k = Group(program, folder, k, m, 4_096, 1_024), Ledger(1, 0), k
        self.clients = {}

    def key_of(self, index, number):
        """A key of a data process that no other client has."""
        name = next(name for name in (f"o{number}-{n}" for n in range(1_000)) if home_of(name, self.k) == index)
        return self.ledger.keys.setdefault(name, Key(name, 0))

    def add(self, what, member, kind, home):
        key = self.key_of(home, sum(len(each) for each in self.clients.values()))
        self.clients.setdefault(what, []).append(Calls(self.ledger, member, kind, key))

    async def play(self, index, manner):
        """The cells of a row."""
        await self.group.start_all()
        dead = self.group.members[index]
        lost = index if index < self.k else 0
        others = [home for home in range(self.k) if home != lost] or [lost]
        for at in self.group.members:
            for kind in ("get", "set"):
                where = "own" if at is dead else kind
                self.add(f"{where} lost", at, kind, lost)
                self.add(f"{where} others", at, kind, others[at.index % len(others)])
        tasks = [asyncio.create_task(each.run()) for clients in self.clients.values() for each in clients]
        await asyncio.sleep(1.0)
        for each in (each for clients in self.clients.values() for each in clients):
            each.longest = 0.0
        if manner == "ends":
            self.group.kill(dead)
        else:
            dead.is_stopped = True
            dead.signal(signal.SIGSTOP)
        await asyncio.sleep(UNSAID)
        cells = [self.own(), await self.newcomer(dead), *[self.cell(f"{kind} {whose}") for kind in ("get", "set") for whose in ("lost", "others")]]
        cells.append(await self.word(dead))
        for each in tasks:
            each.cancel()
        return cells

    def own(self):
        states = {each.state if each.begun is None else "hang" for name in ("own lost", "own others") for each in self.clients[name]}
        return " and ".join(sorted(states))

    async def newcomer(self, dead):
        try:
            at = await Connection.open(dead, self.ledger)
            await asyncio.wait_for(at.exchange([get_of([self.ledger.begin(0, "get", "none")])]), 2.0)
            return "answered"
        except Gone:
            return "refused"
        except asyncio.TimeoutError:
            return "hangs"

    def cell(self, name):
        clients = self.clients[name]
        states = ["let go" if each.state == "broken" else "wait" if each.waits() else "" for each in clients]
        found = sorted(set(states) - {""})
        if "" not in states:
            return " or ".join(found)
        longest = max(each.longest for each, state in zip(clients, states) if not state)
        return f"{1000 * longest:.0f}" + "".join(f" ({states.count(state)} of {len(clients)}: {state})" for state in found)

    async def word(self, dead):
        """Says that it is dead. Until when the last of the calls that waited was answered."""
        waiting = [each for name, clients in self.clients.items() if not name.startswith("own") for each in clients if each.waits()]
        begun = {each: each.begun for each in waiting}
        said = time.monotonic()
        await self.group.condemn([dead], self.group.answering()[0])
        while any(each.begun == begun[each] for each in waiting):
            await asyncio.sleep(0.001)
            if time.monotonic() - said > 60.0:
                return "never"
        return f"{1000 * (time.monotonic() - said):.0f}"


async def one(program, shape, index, manner):
    with tempfile.TemporaryDirectory() as folder:
        silence = Silence(program, folder, shape)
        try:
            return await silence.play(index, manner)
        finally:
            silence.group.end()


def main():
    program, shape = (sys.argv[1:] + ["4 2"])[:2]
    k = int(shape.split()[0])
    print("| who | connections at it | one made then | gets of its keys | gets of others' | sets of its keys | sets of others' | behind the word |")
    print("|---|---|---|---|---|---|---|---|")
    for index, name in ((1, "a data process"), (k, "the first parity process"), (k + 1, "another parity process")):
        for manner in ("ends", "hangs"):
            if index < k + int(shape.split()[1]):
                print(f"| {name} {manner} | " + " | ".join(asyncio.run(one(program, shape, index, manner))) + " |", flush=True)


if __name__ == "__main__":
    main()
