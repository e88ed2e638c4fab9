"""Six members that are closed, listed, opened and moved: closing.py PROGRAM SETTINGS BASES. The bases are those of the settings, or no word."""
import re
import signal
import socket
import subprocess
import sys
import tempfile
import time

KEYS = 3000
CLIENTS = 60


class Lines:
    """A connection of lines."""

    def __init__(self, address):
        host, port = address.rsplit(":", 1)
        until = time.monotonic() + 60
        while True:
            try:
                self.stream = socket.create_connection((host, int(port)), timeout=60)
                break
            except OSError:
                if time.monotonic() > until:
                    raise
                time.sleep(0.1)
        self.file = self.stream.makefile("rb")

    def send(self, text):
        self.stream.sendall(text)

    def line(self):
        return self.file.readline().rstrip(b"\r\n")

    def ask(self, text):
        self.send(text)
        return self.line()


class Client(Lines):
    def set(self, key, value, flags=0, until=0):
        return self.ask(b"set %s %d %d %d\r\n%s\r\n" % (key, flags, until, len(value), value))

    def cas(self, key, value, number):
        return self.ask(b"cas %s 0 0 %d %d\r\n%s\r\n" % (key, len(value), number, value))

    def gets(self, key):
        """The flags, the cas number and the value, or None."""
        words = self.ask(b"gets %s\r\n" % key).split()
        if words == [b"END"]:
            return None
        value = self.file.read(int(words[3]) + 2)[:-2]
        assert self.line() == b"END"
        return int(words[2]), int(words[4]), value


class Control(Lines):
    def say(self, word):
        return self.ask(word.encode() + b"\n").decode()

    def status(self):
        """The lines of a status: a name and what stands behind it, those of a partition by their first two words."""
        self.send(b"status\n")
        found = {}
        while (line := self.line().decode()) != "end":
            name, _, value = line.rpartition(" ") if line.split()[0] in ("unfinished", "base") else line.partition(" ")
            found[name] = value
        return found

    def page(self, partition, place):
        self.send(b"items %d\n" % partition if place is None else b"items %d %d\n" % (partition, place))
        found = []
        while True:
            found.append(self.line().decode())
            if not found[-1].startswith("item "):
                return found

    def items(self, partition):
        found, place = [], None
        while True:
            *items, last = self.page(partition, place)
            assert len(items) <= 1024
            found += items
            if last == "end":
                return found
            assert last == f"more {len(found)}", last
            place = len(found)

    def http(self, path):
        self.send(b"GET %s HTTP/1.0\r\n\r\n" % path)
        return self.file.read().decode()


def home_of(key, k):
    hash_ = 2166136261
    for byte in key:
        hash_ = (hash_ ^ byte) * 16777619 % 2**32
    return hash_ % k


def key_of(i):
    return b"key%d" % i


def item_of(i):
    """The flags, the end and the value of an item."""
    return i % 7, 0 if i % 3 else 3000000000, b"value%d" % i


def play(programs, members, bases):
    k = len(bases)
    clients = [Client(client) for _, client, _ in members]
    controls = [Control(control) for _, _, control in members]
    numbers = check_numbers(clients, bases)
    check_open_calls(programs, members, clients, controls)
    for control in controls:
        assert control.say("close") == "closed"
    for text in (b"delete key7", b"incr key7 1", b"touch key7 1", b"add new 0 0 1\r\nx", b"append key7 0 0 1\r\nx", b"cas key7 0 0 1 1\r\nx"):
        assert clients[3].ask(text + b"\r\n") == b"SERVER_ERROR group moves", text
    check_rest(controls, clients, bases, k)
    listed = [item for d in range(k) for item in controls[d].items(d)]
    check_listed(listed, clients[5])
    assert controls[4].page(0, None) == ["another member heads this partition"]
    assert controls[0].page(k, None) == ["no partition has this number"]
    check_loss(programs, clients, controls, numbers)
    check_moved(members, controls)


def check_numbers(clients, bases):
    """Sets all, and has cas take each item's number and no other."""
    for i in range(KEYS):
        flags, until, value = item_of(i)
        assert clients[i % 6].set(key_of(i), value, flags, until) == b"STORED"
    numbers = {}
    for i in range(KEYS):
        flags, number, value = clients[i % 5].gets(key_of(i))
        base = bases[home_of(key_of(i), len(bases))]
        assert (flags, value) == (item_of(i)[0], item_of(i)[2]) and base < number <= base + KEYS, (i, number)
        numbers[i] = number
    for i in range(0, KEYS, 100):
        key, base = key_of(i), bases[home_of(key_of(i), len(bases))]
        for other in {0, 1, base, numbers[i] - base, numbers[i] - 1, numbers[i] + 1} - {numbers[i]}:
            assert clients[1].cas(key, b"x", other) == b"EXISTS", (i, other)
            assert clients[1].cas(b"absent", b"x", other) == b"NOT_FOUND"
        assert clients[1].cas(key, item_of(i)[2], numbers[i]) == b"STORED"
        after = clients[2].gets(key)[1]
        assert after > numbers[i]
        numbers[i] = after
    return numbers


def check_open_calls(programs, members, clients, controls):
    """Calls that are open as a member is closed end as ever; those that wait for a caller don't begin."""
    programs[4].send_signal(signal.SIGSTOP)
    setting = [Client(members[0][1]) for _ in range(CLIENTS)]
    for i, client in enumerate(setting):
        client.send(b"set open%d 0 0 1\r\nx\r\n" % i)
    time.sleep(1)
    assert controls[0].say("close") == "closed"
    changing = int(controls[0].status()["changing"])
    assert 0 < changing < CLIENTS
    assert clients[0].set(b"late", b"x") == b"SERVER_ERROR group moves"
    assert clients[0].gets(key_of(7))[2] == item_of(7)[2]
    programs[4].send_signal(signal.SIGCONT)
    ends = [client.line() for client in setting]
    assert ends.count(b"STORED") == changing and ends.count(b"SERVER_ERROR group moves") == CLIENTS - changing, ends
    for i, end in enumerate(ends):
        assert (clients[1].gets(b"open%d" % i) is not None) == (end == b"STORED")
    assert controls[0].status()["changing"] == "0"
    assert controls[0].say("open") == "open"
    assert clients[0].set(b"late", b"x") == b"STORED"


def check_rest(controls, clients, bases, k):
    """The group comes to rest, and each head tells the last number that it gave."""
    until = time.monotonic() + 30
    while any(control.status()[f"unfinished {d}"] != "0" for d, control in enumerate(controls[:k])):
        assert time.monotonic() < until
        time.sleep(0.1)
    for d, control in enumerate(controls[:k]):
        status = control.status()
        assert (status["closed"], status["moved"], status["changing"]) == ("1", "0", "0")
        last = max(clients[0].gets(key_of(i))[1] for i in range(KEYS) if home_of(key_of(i), k) == d)
        assert last <= int(status[f"base {d}"]) <= bases[d] + 3 * KEYS


def check_listed(listed, client):
    """All that was set, each once, with its flags, its value's length and its end."""
    found = {}
    for item in listed:
        _, key, flags, length, until = item.split()
        assert key not in found
        found[bytes.fromhex(key)] = (int(flags), int(length), 0 if until == "-" else int(until))
    for i in range(KEYS):
        flags, until, value = item_of(i)
        if i % 100:
            assert found[key_of(i)] == (flags, len(value), until), i
    for key in found:
        assert client.gets(key) is not None


def check_loss(programs, clients, controls, numbers):
    """The first parity process lists what a lost data process had."""
    before = controls[0].items(0)
    programs[0].kill()
    assert all(control.say("dead d0") == "taken" for control in controls[1:])
    until = time.monotonic() + 30
    while controls[4].status()["taken"] != "d0":
        assert time.monotonic() < until
        time.sleep(0.1)
    assert controls[4].items(0) == before
    assert controls[5].page(0, None) == ["another member heads this partition"]
    for i in range(0, KEYS, 10):
        assert clients[1].gets(key_of(i))[1:] == (numbers[i], item_of(i)[2])


def check_moved(members, controls):
    _, client, control = members[1]
    old = Client(client)
    assert old.gets(key_of(7))[2] == item_of(7)[2]
    assert controls[1].say("moved") == controls[1].say("moved") == "moved"
    assert old.line() == b""
    late = Client(client)
    assert (late.line(), late.line()) == (b"SERVER_ERROR group moved", b"")
    assert " 503 " in Control(control).http(b"/health").splitlines()[0]
    metrics = Control(control).http(b"/metrics")
    assert all(re.search(f"^{line}$", metrics, re.M) for line in ("cocytus_closed 1", "cocytus_moved 1", "cocytus_changing_calls 0"))
    assert controls[1].say("open") == controls[1].say("open") == "open"
    assert " 200 " in Control(control).http(b"/health").splitlines()[0]
    assert Client(client).set(b"again", b"x") == b"STORED"


def main():
    program, settings, bases = sys.argv[1:4]
    text = open(settings).read()
    members = re.findall(r'name = "([^"]+)"\s*link = "[^"]+"\s*client = "([^"]+)"\s*control = "([^"]+)"', text)
    k = int(re.search(r"^k = (\d+)", text, re.M)[1])
    with tempfile.TemporaryFile() as said:
        programs = [subprocess.Popen([program, "member", name], stdin=open(settings), stdout=said, stderr=said) for name, _, _ in members]
        try:
            play(programs, members, [int(base) for base in bases.split(",")] if bases else [0] * k)
        finally:
            for each in programs:
                each.kill()
    print(f"closed, listed, opened and moved with bases {bases or 'left out'}: all was right")


main()
