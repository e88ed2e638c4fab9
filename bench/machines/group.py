"""A group of members as programs on this machine, on ports of its own."""
import asyncio
import os
import random
import socket
import subprocess

from limits import within

STARTING = 120.0


class Wrong(Exception):
    """What a run must not show."""


def own_host():
    """An address of the loopback that no other program of these tests uses now."""
    number = os.getpid()
    return f"127.{1 + (number >> 16)}.{number >> 8 & 255}.{number & 255}"


def free_ports(host, count):
    """So many ports of an address that nobody uses, below those that the system gives to clients."""
    found = []
    while len(found) < count:
        port = random.randrange(10_000, 32_000)
        with socket.socket() as probe:
            try:
                probe.bind((host, port))
            except OSError:
                continue
        if port not in found:
            found.append(port)
    return found


class Member:
    """A member, and its program once it was started."""

    def __init__(self, name, index, host, ports):
        self.name, self.index, self.host = name, index, host
        self.link, self.client, self.control = ports
        self.program, self.errors = None, None
        self.may_end = self.is_condemned = self.is_stopped = False

    def said(self):
        with open(self.errors, errors="replace") as text:
            return text.read()

    def has_ended(self):
        return self.program.poll() is not None

    def signal(self, number):
        if not self.has_ended():
            self.program.send_signal(number)


class Group:
    """The members of a group of a shape, or of several on the same machines, in a folder that keeps their settings and what they write."""

    def __init__(self, program, folder, k, m, block, blocks, patience=5, groups=1):
        self.program, self.folder, self.k, self.m, self.groups = program, folder, k, m, groups
        self.block, self.blocks, self.patience = block, blocks, patience
        self.order = os.environ.get("ORDER", "strict")
        names = [f"d{n}" for n in range(k)] + [f"p{n}" for n in range(m)]
        self.host, self.key = own_host(), os.urandom(16).hex()
        ports = free_ports(self.host, 3 * len(names))
        self.members = [Member(name, n, self.host, ports[3 * n:3 * n + 3]) for n, name in enumerate(names)]
        self.words = []

    def settings(self, links):
        """The settings, with other ports for the links to some members."""
        lines = [f'group = "{self.key}"', f"k = {self.k}", f"m = {self.m}", f"block = {self.block}", f"blocks = {self.blocks}",
                 f"patience = {self.patience}", f'order = "{self.order}"',
                 f"one_word = {'true' if self.k <= self.m else 'false'}"]
        lines += [f"groups = {self.groups}"] if self.groups > 1 else []
        for each in self.members:
            lines += ["[[members]]", f'name = "{each.name}"', f'link = "{self.host}:{links.get(each.index, each.link)}"',
                      f'client = "{self.host}:{each.client}"', f'control = "{self.host}:{each.control}"']
        return "\n".join(lines) + "\n"

    def start(self, member, links=None, suffix=""):
        """Starts a member's program. `links` has ports of relays by the indexes of the members behind them."""
        path = os.path.join(self.folder, member.name + suffix)
        with open(path + ".toml", "w") as text:
            text.write(self.settings(links or {}))
        with open(path + ".toml") as settings, open(path + ".errors", "wb") as errors, open(path + ".output", "wb") as output:
            started = subprocess.Popen([self.program, "member", member.name], stdin=settings, stdout=output, stderr=errors)
        return started, path + ".errors"

    async def start_all(self, relays=None, absent=None):
        """Starts all members but one that is absent, and waits until each serves. `relays` has ports by the indexes of who connects and of whom it
        reaches."""
        present = [each for each in self.members if each is not absent]
        for each in present:
            links = {b: port for (a, b), port in (relays or {}).items() if a == each.index}
            each.program, each.errors = self.start(each, links)
        if absent is not None:
            absent.may_end = True
            await self.reach(present[0])
            await self.condemn([absent], present[0])
        for each in present:
            await self.await_that(STARTING, f"{each.name} serves", self.serves(each, present))

    async def serves(self, member, present):
        while "serves at" not in member.said():
            for ended in [each for each in present if each.has_ended()]:
                raise Wrong(f"{ended.name} ended with {ended.program.returncode} at the start")
            await asyncio.sleep(0.02)

    async def await_that(self, seconds, what, work):
        try:
            return await within(seconds, work)
        except asyncio.TimeoutError:
            raise Wrong(f"not within {seconds:.0f} s: {what}") from None

    async def reach(self, member):
        """Waits until a member hears its operators."""
        async def heard():
            while not member.has_ended():
                try:
                    return await self.ask(member, "status")
                except OSError:
                    await asyncio.sleep(0.05)
        await self.await_that(STARTING, f"{member.name} hears its operators", heard())

    def living(self):
        """The members that were neither killed nor condemned."""
        return [each for each in self.members if not each.may_end and not each.is_condemned]

    def answering(self):
        """The living ones that aren't stopped just now."""
        return [each for each in self.living() if not each.is_stopped]

    def kill(self, member):
        """Kills a member with -9. Its end is waited for, so that nothing of it goes on."""
        member.may_end = True
        member.program.kill()
        member.program.wait()

    async def ask(self, member, line):
        """An operator's line at a member, and the lines of its answer."""
        async def talk():
            reader, writer = await asyncio.open_connection(self.host, member.control)
            writer.write(line.encode() + b"\n")
            lines = [(await reader.readline()).decode().rstrip("\n")]
            while line == "status" and lines[-1] not in ("end", ""):
                lines.append((await reader.readline()).decode().rstrip("\n"))
            writer.close()
            return lines
        return await self.await_that(60.0, f"{member.name} answers to: {line}", talk())

    async def condemn(self, members, at):
        """Says that members are dead, at one that lives."""
        for each in members:
            each.is_condemned = True
        names = " ".join(each.name for each in members)
        self.words.append(f"{names} at {at.name}")
        lines = await self.ask(at, f"dead {names}")
        if lines != ["taken"]:
            raise Wrong(f"{at.name} answers to the death of {names}: {lines}")

    async def taken(self, member):
        """Waits until all that live have taken the death of a member."""
        async def has_taken(at):
            while not self.have_taken(await self.ask(at, "status"), member):
                await asyncio.sleep(0.02)
        for each in self.answering():
            await self.await_that(60.0, f"{each.name} takes the death of {member.name}", has_taken(each))

    def have_taken(self, status, member):
        """Whether a status says that the death of a member is taken in each group."""
        told = [line for line in status if line.startswith("taken ") or line.startswith("group ") and line.split()[2] == "taken"]
        return len(told) == self.groups and all(member.name in line.split() for line in told)

    async def idle(self):
        """Waits until no call is left at those that live, once all clients are gone. What is left there else."""
        lines, left = {}, []

        async def is_idle(at):
            while not {"clients 0", "calls 0", "parked 0", "answers 0"} <= set(lines.setdefault(at.name, [])):
                lines[at.name] = await self.ask(at, "status")
                await asyncio.sleep(0.1)
        for each in self.living():
            try:
                await within(30.0, is_idle(each))
            except asyncio.TimeoutError:
                left.append(f"{each.name} has left, with no client: {', '.join(lines[each.name][2:-1])}")
        return left

    def faults(self):
        """The members that ended by themselves or say that they stop."""
        found = [f"{each.name} ended with {each.program.returncode}" for each in self.members if not each.may_end and each.has_ended()]
        return found + [f"{each.name} says: {line}" for each in self.living() for line in each.said().splitlines()
                        if "this member stops" in line or "no member of this group" in line or "fault" in line or "panicked" in line]

    def end(self):
        for each in self.members:
            if each.program is not None:
                each.program.kill()
                each.program.wait()
