"""Six members as programs, two of which are killed: members.py PROGRAM SETTINGS.

It sets 300 values over all six, kills a data process and a parity process with -9, says to another member that they are dead, reads every value
back at each that lives, sets them anew, and ends all by their own names. The status is 0 only where each value was right."""
import random
import re
import socket
import subprocess
import sys
import tempfile
import time

KEYS = 300
LATEST = 120.0


class Wrong(Exception):
    pass


class Client:
    """A client of one member."""

    def __init__(self, address):
        host, port = address.rsplit(":", 1)
        self.stream = socket.create_connection((host, int(port)), timeout=20)
        self.lines = self.stream.makefile("rb")

    def ask(self, text):
        self.stream.sendall(text)

    def line(self):
        line = self.lines.readline()
        if not line.endswith(b"\n"):
            raise Wrong("a member ended a connection")
        return line.rstrip(b"\r\n")

    def set(self, key, value):
        self.ask(b"set %s 0 0 %d\r\n%s\r\n" % (key, len(value), value))
        return self.line() == b"STORED"

    def get(self, key):
        self.ask(b"get %s\r\n" % key)
        head = self.line()
        if head == b"END":
            return None
        if not head.startswith(b"VALUE "):
            raise Wrong(head.decode())
        size = int(head.split()[3])
        value = self.lines.read(size + 2)[:-2]
        if self.line() != b"END":
            raise Wrong("no END")
        return value

    def incr(self, key):
        self.ask(b"incr %s 1\r\n" % key)
        return self.line()

    def say(self, text):
        """A line of an operator, and the answer."""
        self.ask(text.encode() + b"\n")
        return self.line().decode()


def settings_of(path):
    text = open(path).read()
    found = re.findall(r'name = "([^"]+)"\s*link = "[^"]+"\s*client = "([^"]+)"\s*control = "([^"]+)"', text)
    return [(name, client, control) for name, client, control in found]


def check(members, values, what):
    for name, client, _ in members:
        at = Client(client)
        for key, value in values.items():
            found = at.get(key)
            if found != value:
                raise Wrong(f"{what}: {name} shows {found} for {key.decode()}, not {value}")
    print(f"{what}: {len(values)} values are right at each of {len(members)} members", flush=True)


def put(members, values, rounds, rng):
    clients = [Client(client) for _, client, _ in members]
    for n in range(rounds):
        key, value = b"key-%d" % (n % KEYS), b"%032x" % rng.getrandbits(rng.choice([100, 128]))
        if not rng.choice(clients).set(key, value):
            raise Wrong(f"{key.decode()} was not stored")
        values[key] = value


def reach(address):
    """Waits until a member serves clients there."""
    for _ in range(200):
        try:
            at = Client(address)
            break
        except ConnectionRefusedError:
            time.sleep(0.1)
    else:
        raise Wrong(f"nothing listens at {address}")
    at.ask(b"version\r\n")
    at.line()


def run(members, programs, started):
    for _, client, _ in members:
        reach(client)
    print(f"six members serve, after {time.time() - started:.1f} s", flush=True)
    rng, values = random.Random(7), {}
    put(members, values, KEYS, rng)
    check(members, values, "six live")
    count(members, 1)
    killed, living = [members[1], members[4]], [m for m in members if m[0] not in (members[1][0], members[4][0])]
    for name, _, _ in killed:
        programs[name].kill()
        programs[name].wait()
    names = " ".join(name for name, _, _ in killed)
    said = time.time()
    answer = Client(living[-1][2]).say(f"dead {names}")
    print(f"killed {names}; said so at {living[-1][0]}: {answer}", flush=True)
    check(living, values, "two dead")
    print(f"read back within {time.time() - said:.1f} s of the word", flush=True)
    put(living, values, KEYS, rng)
    check(living, values, "set anew with two dead")
    count(living, len(members) + 1)
    for name, _, control in living:
        if Client(control).say(f"dead {name}") != "ended":
            raise Wrong(f"{name} did not end by its own name")
        if programs[name].wait(timeout=5) != 0:
            raise Wrong(f"{name} ended with status {programs[name].returncode}")


def count(members, first):
    """Each member counts one key up."""
    if first == 1 and not Client(members[0][1]).set(b"count", b"0"):
        raise Wrong("count was not stored")
    for n, (name, client, _) in enumerate(members, first):
        found = Client(client).incr(b"count")
        if found != b"%d" % n:
            raise Wrong(f"{name} counts {found.decode()}, not {n}")
    print(f"counted up to {first + len(members) - 1} by {len(members)} members", flush=True)


def main():
    program, path = sys.argv[1:]
    members, started, programs = settings_of(path), time.time(), {}
    with tempfile.TemporaryDirectory() as folder:
        try:
            for name, _, _ in members:
                said = open(f"{folder}/{name}", "wb")
                programs[name] = subprocess.Popen(
                    [program, "member", name], stdin=open(path, "rb"), stdout=said, stderr=said)
            run(members, programs, started)
            print(f"all right, after {time.time() - started:.1f} s")
            return 0 if time.time() - started < LATEST else 1
        except (Wrong, OSError, subprocess.TimeoutExpired) as wrong:
            print(f"wrong: {wrong}")
            for name in programs:
                print(f"{name} said: {open(f'{folder}/{name}').read()}")
            return 1
        finally:
            for each in programs.values():
                each.kill()
                each.wait()


if __name__ == "__main__":
    sys.exit(main())
