"""Groups whose items are carried into a fresh one: carry.py PROGRAM FOLDER [RUNS [SHAPE [SEED]]]. Each run starts a group of the shape ("4 2"), loads it, kills
up to m of its members under load and says that they are dead, starts a fresh group with bases, and has the command `carry` carry the items while the load waits; the load then goes on
at the fresh group. A line for each run; the status is 0 only where each was right. CARRY=PROGRAM has another program carry."""
import asyncio
import hashlib
import os
import random
import subprocess
import sys
import threading
import time

from group import Group, Wrong

LATEST = 300.0


class Moved(Exception):
    """The group takes no change, or is gone."""


class Connection:
    """A connection of a client, one request at a time."""

    def __init__(self, host, port):
        import socket
        self.stream = socket.create_connection((host, port), timeout=60)
        self.lines = self.stream.makefile("rb")

    def ask(self, text):
        self.stream.sendall(text)
        line = self.lines.readline()
        if not line.endswith(b"\n") or line.startswith(b"SERVER_ERROR group mov"):
            raise Moved(line)
        return line.rstrip(b"\r\n")

    def set(self, key, flags, exptime, value):
        return self.ask(b"set %s %d %d %d\r\n%s\r\n" % (key, flags, exptime, len(value), value))

    def gets(self, key):
        """Flags, cas number and value, or nothing."""
        head = self.ask(b"gets %s\r\n" % key)
        if head == b"END":
            return None
        words = head.split()
        if words[0] != b"VALUE":
            raise Moved(head)
        value = self.lines.read(int(words[3]) + 2)[:-2]
        if self.lines.readline() != b"END\r\n":
            raise Moved(b"no END")
        return int(words[2]), int(words[4]), value


class Key:
    """A key that one client sets: what was acknowledged last, what was sent since, and the highest cas number that was seen."""

    def __init__(self, name):
        self.name, self.acked, self.sent, self.cas, self.expires = name, None, [], 0, 0


def value_of(key, version, size):
    piece = hashlib.blake2b(b"%s %d" % (key, version)).digest()
    return (piece * (size // 64 + 1))[:size]


class Client(threading.Thread):
    """A client that sets and gets its own keys, first at one group, and where that is closed or gone at the next."""

    def __init__(self, number, run):
        super().__init__(daemon=True)
        self.number, self.run_of, self.rng = number, run, random.Random(f"{run.seed} {number}")
        self.keys = [Key(b"k%d.%d" % (number, n)) for n in range(run.keys)]
        self.version, self.sets, self.faults, self.waited, self.at_new = 0, 0, [], 0.0, 0

    def run(self):
        connection, asked = None, time.monotonic()
        while not self.run_of.is_over:
            try:
                group = self.run_of.group
                if connection is None:
                    member = self.rng.choice(group.answering())
                    connection = Connection(group.host, member.client)
                self.step(connection)
                now = time.monotonic()
                self.waited, asked = max(self.waited, now - asked), now
                if group is not self.run_of.old:
                    self.at_new += 1
                if self.run_of.pace:
                    time.sleep(self.run_of.pace)
                    asked = time.monotonic()
            except (Moved, OSError):
                connection = None
                time.sleep(0.05)
            except Wrong as wrong:
                self.faults.append(str(wrong))
                return

    def step(self, connection):
        key = self.rng.choice(self.keys)
        if self.rng.random() < 0.3 and key.acked is not None:
            return self.get(connection, key)
        self.version += 1
        flags, size = self.version, self.rng.choice([0, 10, 100, 300, 4096, 20000])
        exptime = key.expires if key.expires else 0
        if key.acked is None and self.rng.random() < 0.2:
            exptime = key.expires = int(time.time()) + self.rng.choice([3_000_000, 5_000_000])
        item = (flags, exptime, value_of(key.name, self.version, size))
        key.sent.append(item)
        if connection.set(key.name, flags, exptime, item[2]) == b"STORED":
            key.acked, key.sent = item, []
            self.sets += 1

    def get(self, connection, key):
        self.judge(key, connection.gets(key.name), "while it ran")

    def judge(self, key, found, when):
        may = [item for item in [key.acked] + key.sent if item is not None]
        if found is None:
            if key.acked is not None:
                raise Wrong(f"{when}: {key.name} is lost")
            return
        flags, cas, value = found
        if not any(item[0] == flags and item[2] == value for item in may):
            raise Wrong(f"{when}: {key.name} has flags {flags}, not {may[-1][0]}")
        if cas < key.cas:
            raise Wrong(f"{when}: the cas number of {key.name} fell from {key.cas} to {cas}")
        key.cas = cas


class Run:
    def __init__(self, program, folder, shape, seed):
        self.program, self.folder, self.seed = program, folder, seed
        self.k, self.m = map(int, shape.split())
        self.rng = random.Random(seed)
        self.keys = self.rng.choice([50, 200, 800])
        self.pace = self.rng.choice([0, 0.002, 0.01])
        self.is_over, self.new = False, None
        os.makedirs(folder, exist_ok=True)
        self.old = self.group = Group(program, folder, self.k, self.m, 4096, 8192)
        self.clients = [Client(n, self) for n in range(self.rng.choice([2, 8, 16]))]

    async def play(self):
        try:
            await self.old.start_all()
            for each in self.clients:
                each.start()
            await asyncio.sleep(self.rng.uniform(1, 3))
            killed = await self.lose()
            await asyncio.sleep(self.rng.uniform(0.2, 1.5))
            await self.begin_new()
            begun = time.monotonic()
            told = await asyncio.to_thread(self.carry)
            taken = time.monotonic() - begun
            self.group = self.new
            await asyncio.sleep(self.rng.uniform(1, 2))
            self.is_over = True
            for each in self.clients:
                await asyncio.to_thread(each.join, 120)
            self.judge()
            sets = sum(each.sets for each in self.clients)
            waited = max(each.waited for each in self.clients)
            behind = sum(each.at_new for each in self.clients)
            print(f"| {self.seed} | {killed} | {len(self.clients)} | {sets} | {told} in {taken:.1f} s | {behind} | {waited:.1f} | right |", flush=True)
            return True
        except Wrong as wrong:
            print(f"| {self.seed} | wrong: {wrong} | {self.folder}", flush=True)
            return False
        finally:
            self.is_over = True
            self.old.end()
            if self.new:
                self.new.end()

    async def lose(self):
        """Kills up to m members, and says so."""
        lost = self.rng.sample(self.old.members, self.rng.randint(0, self.m))
        for each in lost:
            self.old.kill(each)
        if lost:
            await asyncio.sleep(self.rng.uniform(0, 0.3))
            await self.old.condemn(lost, self.rng.choice(self.old.living()))
        return " ".join(each.name for each in lost) or "none"

    async def begin_new(self):
        """Starts the fresh group, with bases far above what the old one tells now."""
        bases = {}
        while len(bases) < self.k:
            for each in self.old.living():
                for line in await self.old.ask(each, "status"):
                    if line.startswith("base "):
                        d, base = map(int, line.split()[1:])
                        bases[d] = base + 1_000_000
        bases = [bases[d] for d in range(self.k)]
        folder = os.path.join(self.folder, "new")
        os.makedirs(folder, exist_ok=True)
        self.new = Group(self.program, folder, self.k, self.m, 4096, 8192)
        plain = self.new.settings
        self.new.settings = lambda links: f"base = {bases}\n" + plain(links)
        await self.new.start_all()

    def settings(self):
        lines = [f"k = {self.k}"]
        for name, group in (("from", self.old), ("to", self.new)):
            for each in group.members:
                lines += [f"[[{name}]]", f'name = "{each.name}"', f'link = "{group.host}:{each.link}"', f'client = "{group.host}:{each.client}"',
                          f'control = "{group.host}:{each.control}"']
        return "\n".join(lines) + "\n"

    def carry(self):
        with open(os.path.join(self.folder, "carry.toml"), "w") as text:
            text.write(self.settings())
        words = [os.environ["CARRY"]] if "CARRY" in os.environ else [self.program, "carry"]
        with open(os.path.join(self.folder, "carry.toml")) as settings, open(os.path.join(self.folder, "carry.errors"), "wb") as errors:
            ended = subprocess.run(words, stdin=settings, stdout=subprocess.PIPE, stderr=errors, timeout=LATEST)
        if ended.returncode != 0:
            raise Wrong(f"carry ended with {ended.returncode}")
        with open(os.path.join(self.folder, "carry.errors"), encoding="utf-8") as errors:
            return errors.read().splitlines()[-1]

    def judge(self):
        for each in self.clients:
            if each.is_alive():
                raise Wrong(f"client {each.number} waits")
            if each.faults:
                raise Wrong(each.faults[0])
        listed = self.listed()
        connection = Connection(self.new.host, self.new.members[-1].client)
        for each in self.clients:
            for key in each.keys:
                each.judge(key, connection.gets(key.name), "in the end")
                if key.acked is not None and listed.get(key.name, "none") != ("-" if not key.expires else str(key.expires)):
                    raise Wrong(f"{key.name} ends at {listed.get(key.name)}, not {key.expires}")

    def listed(self):
        """When each item ends, as the fresh group lists it."""
        found = {}
        for d in range(self.k):
            at, start = Connection(self.new.host, self.new.members[d].control), 0
            line = at.ask(b"items %d %d\n" % (d, start)).decode()
            while line != "end":
                words = line.split()
                if words[0] == "more":
                    line = at.ask(b"items %d %s\n" % (d, words[1].encode())).decode()
                    continue
                found[bytes.fromhex(words[1])] = words[4]
                line = at.lines.readline().decode().rstrip("\n")
        return found


def main():
    program, folder = sys.argv[1:3]
    runs, shape, seed = (sys.argv[3:] + [None] * 3)[:3]
    runs, shape, seed = int(runs or 3), shape or "4 2", int(seed or time.time())
    print("| seed | killed | clients | acknowledged sets | carried | calls at the fresh group | longest answer, s | verdict |\n|---|---|---|---|---|---|---|---|", flush=True)
    right = 0
    for each in range(seed, seed + runs):
        right += asyncio.run(Run(program, os.path.join(folder, f"seed-{each}"), shape, each).play())
    print(f"\n{right} of {runs} runs of {shape} right")
    sys.exit(0 if right == runs else 1)


if __name__ == "__main__":
    main()
