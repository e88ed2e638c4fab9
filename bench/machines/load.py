"""Clients that load a group: each asks members that it chooses, over a connection that it keeps for some time, several requests at once."""
import asyncio
import random

from connection import Connection, Gone, delete_of, get_of, incr_of, set_of
from group import Wrong
from ledger import Key
from limits import within

COUNTERS, SHARED, SHARING, READERS = 4, 6, 8, 24


class Load:
    """`clients` of them, each with up to `depth` requests under way; `gets` of 100 requests on keys of their own are gets, and `leaving` of 1,000
    times a client goes away in the middle. All together send at most `pace` requests in a second, if that isn't 0."""

    def __init__(self, group, ledger, seed, clients, depth, gets, leaving, pace=0):
        self.group, self.ledger, self.seed = group, ledger, seed
        self.clients, self.depth, self.gets, self.leaving, self.pace = clients, depth, gets, leaving, pace
        self.over, self.unique, self.at, self.broken, self.left = asyncio.Event(), 0, {}, 0, 0
        slots = 6 if clients < 15 else 3 if clients < 50 else 1
        self.own = [[self.new_key(n, slot, 0) for slot in range(slots)] for n in range(clients)]
        self.counters = [f"c{n}" for n in range(COUNTERS)]
        self.shared = [f"s{n}" for n in range(SHARED)]

    def new_key(self, number, slot, generation):
        key = Key(f"o{number}-{slot}-{generation}", number)
        self.ledger.keys[key.name] = key
        return key

    async def open_counters(self, member):
        """Sets the counters to 0 at a member, before the load. Where it lets its clients go a set may act later: others are counters then."""
        while True:
            try:
                at = await Connection.open(member, self.ledger)
                await at.exchange([set_of(self.ledger.begin(-1, "set", key, 0), 0, b"0") for key in self.counters])
                return at.leave()
            except Gone:
                self.counters = [f"{key}-" for key in self.counters]
                await asyncio.sleep(0.1)

    def start(self):
        return [asyncio.create_task(self.run(n), name=f"client {n}") for n in range(self.clients)]

    async def run(self, number):
        """A client."""
        rng = random.Random(f"{self.seed} {number}")
        while not self.over.is_set():
            try:
                # Some ask one that hangs.
                members = self.group.answering() if rng.random() < 0.9 else self.group.living()
                member = rng.choice(members)
                self.at[number] = member
                at = await Connection.open(member, self.ledger)
                try:
                    for _ in range(rng.randrange(1, 60)):
                        count = rng.randint(1, self.depth)
                        await self.rest(count, rng)
                        if self.over.is_set():
                            return
                        await self.turn(at, number, count, rng)
                finally:
                    at.leave()
            except Gone:
                self.broken += 1
                await asyncio.sleep(0.01)

    async def rest(self, count, rng):
        """Waits as long as so many requests of this client have, so that all keep their pace; or until the load is over."""
        if self.pace:
            try:
                await asyncio.wait_for(self.over.wait(), 2 * rng.random() * count * self.clients / self.pace)
            except asyncio.TimeoutError:
                pass

    async def turn(self, at, number, count, rng):
        """So many requests and their answers."""
        requests = [self.draw(number, rng) for _ in range(count)]
        self.note_order(requests, number)
        try:
            if rng.randrange(1000) < self.leaving:
                await self.leave(at, requests, rng)
            await at.exchange(requests)
        finally:
            self.renew(number, [call for each in requests for call in each.calls if call.end is None])

    async def leave(self, at, requests, rng):
        """Goes away behind a part of the text, or behind a part of the answers."""
        self.left += 1
        if rng.random() < 0.5:
            text = b"".join(each.text for each in requests)
            at.send_text(text[:rng.randrange(len(text) + 1)])
            await asyncio.sleep(rng.random() * 0.01)
        else:
            at.send(requests)
            await at.hear(requests[:rng.randrange(len(requests))])
        at.leave()
        raise Gone

    def note_order(self, requests, number):
        """A get of a client's own key shows no less than the set that it sent before."""
        last = {}
        for call in [call for each in requests for call in each.calls]:
            if call.kind == "set":
                last[call.key] = call
            elif call.kind == "get" and call.high is not None:
                call.prior = last.get(call.key)

    def renew(self, number, calls):
        """New keys for those whose sets stay without an answer."""
        names = {call.key for call in calls if call.kind == "set"}
        for slot, key in enumerate(self.own[number]):
            if key.name in names:
                generation = int(key.name.rsplit("-", 1)[1]) + 1
                self.own[number][slot] = self.new_key(number, slot, generation)

    def draw(self, number, rng):
        part = rng.randrange(100)
        if part < 8:
            return incr_of(self.ledger.begin(number, "incr", rng.choice(self.counters), 1))
        if part < 20 and number < SHARING:
            return self.draw_shared(number, rng)
        if rng.randrange(100) < self.gets:
            keys = {rng.choice(self.own[rng.choice([number, rng.randrange(self.clients)])]).name for _ in range(rng.choice([1, 1, 1, 5]))}
            return get_of([self.ledger.begin(number, "get", key) for key in sorted(keys)])
        key = rng.choice(self.own[number])
        version = key.sent + 1
        value = self.ledger.value_of(key.name, version)
        self.ledger.note_size(len(value))
        return set_of(self.ledger.begin(number, "set", key.name, version), version, value)

    def draw_shared(self, number, rng):
        key, part = rng.choice(self.shared), rng.randrange(10)
        if part < 5:
            return get_of([self.ledger.begin(number, "get", key)])
        if part < 8:
            self.unique += 1_000_000
            return set_of(self.ledger.begin(number, "set", key, self.unique), 0, b"%d" % self.unique)
        if part < 9:
            return incr_of(self.ledger.begin(number, "incr", key, 1))
        return delete_of(self.ledger.begin(number, "delete", key))

    async def finish(self, tasks, seconds):
        """Ends the load, and waits until no answer has come for so long. The clients that wait for one at a member that lives then."""
        self.over.set()
        late, ended = tasks, -1
        while late and ended < self.ledger.ended:
            ended = self.ledger.ended
            late = await self.late(late, seconds)
        hanging = [n for n, task in enumerate(tasks) if task in late and self.at[n] in self.group.living()]
        for task in late:
            task.cancel()
        done = await asyncio.gather(*tasks, return_exceptions=True)
        failed = [each for each in done if isinstance(each, Exception)]
        return [f"client {n} waits at {self.at[n].name}, no answer for {seconds:.0f} s" for n in hanging] + [f"a client failed: {each!r}" for each in failed]

    async def late(self, tasks, seconds):
        """The tasks that have not ended within a time."""
        try:
            await within(seconds, asyncio.wait(tasks))
        except asyncio.TimeoutError:
            pass
        return [each for each in tasks if not each.done()]

    async def read_back(self, seconds):
        """Reads every key at each member that lives, 20 within a time; what counters show there. Where clients were few it is read by one at a time, so
        that what nobody else wakes is seen."""
        shown, names = {}, [*self.ledger.keys, *self.counters, *self.shared]
        parts = [(member, names[first:first + 20]) for member in self.group.living() for first in range(0, len(names), 20)]
        parts.reverse()

        async def read():
            while parts:
                for call in await self.read_part(*parts.pop(), seconds):
                    if call.key in self.counters:
                        shown.setdefault(call.key, []).append(call.answer)
        await asyncio.gather(*[read() for _ in range(1 if self.clients < 5 else READERS)])
        return shown

    async def read_part(self, member, names, seconds):
        try:
            return await within(seconds, self.read_at(member, names))
        except asyncio.TimeoutError:
            raise Wrong(f"{member.name} has not shown {len(names)} keys after {seconds:.0f} s") from None

    async def read_at(self, member, names):
        """The gets of some keys at a member. Where it lets its clients go, since the others are slow, they come again."""
        while True:
            calls = [self.ledger.begin(1000 + member.index, "get", key) for key in names]
            try:
                at = await Connection.open(member, self.ledger)
                await at.exchange([get_of(calls)])
                at.leave()
                return calls
            except Gone:
                await asyncio.sleep(0.1)
