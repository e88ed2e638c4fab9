"""A group of six members whose items are carried into a fresh one: replace.py PROGRAM SETTINGS.

Four clients set and get at the old group. Two of its members are killed with -9 and said to be dead, a fresh group is started whose settings have bases, and the command
`carry` carries the items; the clients, whose changes are refused meanwhile, go on at the fresh group. The status is 0 only where each value that was acknowledged is read
back with its flags, and no cas number fell."""
import os
import random
import subprocess
import sys
import tempfile
import threading
import time

from members import Client, Wrong, reach, settings_of

KEYS, CLIENTS, LATEST = 100, 4, 240.0


class Load(threading.Thread):
    """A client with keys of its own, which moves on to the fresh group once the old one takes no change."""

    def __init__(self, number, groups):
        super().__init__(daemon=True)
        self.number, self.groups, self.rng = number, groups, random.Random(number)
        self.values, self.cas, self.acked, self.sets, self.behind, self.waited = {}, {}, set(), 0, 0, 0.0
        self.wrong, self.is_over = None, False

    def run(self):
        at, group, last = None, 0, time.monotonic()
        while not self.is_over:
            try:
                if at is None:
                    group = len(self.groups) - 1
                    at = Client(self.rng.choice(self.groups[group])[1])
                self.step(at)
                self.waited, last = max(self.waited, time.monotonic() - last), time.monotonic()
                self.behind += group > 0
                time.sleep(0.002)
            except OSError:
                at = None
                time.sleep(0.05)
            except Wrong as wrong:
                if "member ended" not in str(wrong) and "SERVER_ERROR group mov" not in str(wrong):
                    self.wrong = str(wrong)
                    return
                at = None
                time.sleep(0.05)

    def step(self, at):
        key = b"c%d-%d" % (self.number, self.rng.randrange(KEYS))
        flags, value = self.sets + 1, b"%032x" % self.rng.getrandbits(128)
        before = self.values.get(key, [])
        self.values[key] = before + [(flags, value)]
        at.ask(b"set %s %d 0 %d\r\n%s\r\n" % (key, flags, len(value), value))
        answer = at.line()
        if answer != b"STORED":
            raise Wrong(answer.decode())
        self.values[key], self.sets = [(flags, value)], self.sets + 1
        self.acked.add(key)
        self.check(at, key)

    def check(self, at, key):
        at.ask(b"gets %s\r\n" % key)
        head = at.line().split()
        if head[0] != b"VALUE":
            raise Wrong(f"{key.decode()} is not there: {b' '.join(head).decode()}")
        value = at.lines.read(int(head[3]) + 2)[:-2]
        at.line()
        if (int(head[2]), value) not in self.values[key]:
            raise Wrong(f"{key.decode()} shows {value}")
        if int(head[4]) < self.cas.get(key, 0):
            raise Wrong(f"the cas number of {key.decode()} fell")
        self.cas[key] = int(head[4])


def start(program, folder, name, text, members):
    path = os.path.join(folder, name + ".toml")
    with open(path, "w") as settings:
        settings.write(text)
    started = {}
    for member, _, _ in members:
        said = open(os.path.join(folder, f"{name}-{member}"), "wb")
        started[member] = subprocess.Popen([program, "member", member], stdin=open(path), stdout=said, stderr=said)
    for _, client, _ in members:
        reach(client)
    return started


def bases_of(members, k):
    """As high a base for each partition as its head tells, and a million more for what is still set."""
    bases = {}
    while len(bases) < k:
        for _, _, control in members:
            at = Client(control)
            line = at.say("status")
            while line != "end":
                words = line.split()
                if words[0] == "base":
                    bases[int(words[1])] = int(words[2]) + 1_000_000
                line = at.line().decode()
    return [bases[d] for d in range(k)]


def carry(program, folder, old, new, k):
    lines = [f"k = {k}"]
    for title, members in (("from", old), ("to", new)):
        for name, client, control in members:
            lines += [f"[[{title}]]", f'name = "{name}"', f'link = "-"', f'client = "{client}"', f'control = "{control}"']
    path = os.path.join(folder, "carry.toml")
    with open(path, "w") as settings:
        settings.write("\n".join(lines) + "\n")
    words = [os.environ["CARRY"]] if "CARRY" in os.environ else [program, "carry"]
    ended = subprocess.run(words, stdin=open(path), timeout=LATEST)
    if ended.returncode != 0:
        raise Wrong(f"carry ended with {ended.returncode}")


def play(program, path, folder, started):
    text = open(path).read()
    old = settings_of(path)
    fresh = text.replace("6f1c7be2a05d4c1e9b3f80d26a417c55", os.urandom(16).hex()).replace("127.0.0.1:21", "127.0.0.1:22")
    programs = start(program, folder, "old", text, old)
    started.append(programs)
    groups = [old]
    clients = [Load(n, groups) for n in range(CLIENTS)]
    for each in clients:
        each.start()
    time.sleep(2)
    killed, living = [old[1], old[4]], [m for m in old if m not in (old[1], old[4])]
    for name, _, _ in killed:
        programs[name].kill()
        programs[name].wait()
    names = " ".join(name for name, _, _ in killed)
    print(f"killed {names} under load; said so: {Client(living[0][2]).say(f'dead {names}')}", flush=True)
    time.sleep(1)
    fresh = f"base = {bases_of(living, 4)}\n" + fresh
    with open(os.path.join(folder, "fresh.toml"), "w") as settings:
        settings.write(fresh)
    new = settings_of(os.path.join(folder, "fresh.toml"))
    started.append(start(program, folder, "new", fresh, new))
    begun = time.monotonic()
    carry(program, folder, old, new, 4)
    print(f"carried within {time.monotonic() - begun:.1f} s", flush=True)
    groups.append(new)
    time.sleep(3)
    for each in clients:
        each.is_over = True
        each.join(60)
        if each.wrong or each.is_alive():
            raise Wrong(each.wrong or "a client waits")
    for each in clients:
        for key in each.acked:
            each.check(Client(new[5][1]), key)
    total, behind = sum(each.sets for each in clients), sum(each.behind for each in clients)
    print(f"{total} acknowledged sets, {behind} calls at the fresh group, none lost; the longest pause {max(each.waited for each in clients):.1f} s", flush=True)
    if behind == 0:
        raise Wrong("the load does not go on at the fresh group")


def main():
    program, path = sys.argv[1:]
    begun, started = time.time(), []
    with tempfile.TemporaryDirectory() as folder:
        try:
            play(program, path, folder, started)
            print(f"all right, after {time.time() - begun:.1f} s")
            return 0
        except (Wrong, OSError, subprocess.TimeoutExpired) as wrong:
            print(f"wrong: {wrong}")
            return 1
        finally:
            for programs in started:
                for each in programs.values():
                    each.kill()
                    each.wait()


if __name__ == "__main__":
    sys.exit(main())
