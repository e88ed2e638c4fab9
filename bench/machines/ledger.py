"""What clients sent and what was acknowledged, and whether what they read is right.

A key `o..` is set by one client alone, with versions 1, 2, .. as flags and bytes that follow from key and version; a client whose set stays without an
answer goes on with a new key, since the set may act at any later time. A key `c..` is a counter, which is only counted up by 1 once it was set to 0. A
key `s..` is set, counted and deleted by several clients, with numbers, of which no two sets have the same. All calls go into a record, for linear.py."""
import hashlib
import json
import time


LARGEST = 1_048_576


def size_of(seed, key, version, most):
    """How many bytes a version has: 0 to `most`, most of them few."""
    number = int.from_bytes(hashlib.blake2b(f"{seed} {key} {version}".encode(), digest_size=8).digest(), "big")
    part, number = number % 1000, number // 1000
    limit = 0 if part < 40 else 120 if part < 760 else 4_096 if part < 960 else 65_536 if part < 992 else LARGEST
    if part == 999:
        return most
    return min(most, number % (limit + 1))


def bytes_of(key, version, size):
    piece = hashlib.blake2b(f"{key} {version}".encode()).digest()
    return (piece * (size // len(piece) + 1))[:size]


class Call:
    """One call of a client, as it stands in the record."""

    __slots__ = ("client", "kind", "key", "value", "begin", "end", "answer", "low", "high", "prior")

    def __init__(self, client, kind, key, value=None):
        self.client, self.kind, self.key, self.value = client, kind, key, value
        self.begin, self.end, self.answer = time.monotonic(), None, None
        self.low = self.high = self.prior = None

    def row(self):
        return [self.client, self.kind, self.key, self.value, self.begin, self.end, self.answer]


class Key:
    """A key that one client sets."""

    def __init__(self, name, owner):
        self.name, self.owner, self.sent, self.acked, self.refused = name, owner, 0, 0, set()


class Ledger:
    def __init__(self, seed, most):
        self.seed, self.most = seed, most
        self.keys, self.calls, self.faults = {}, [], []
        self.sets = self.gets = self.refusals = self.ended = 0
        self.longest = 0.0
        # Of the values that were set: how many have no byte, are above 64 KiB, and have the most bytes that there may be.
        self.empty = self.large = self.largest = 0

    def value_of(self, key, version):
        return bytes_of(key, version, size_of(self.seed, key, version, self.most))

    def begin(self, client, kind, key, value=None):
        """A call goes out. A get of a key that one client sets notes what it may show: the client's own requests take effect in their order."""
        call = Call(client, kind, key, value)
        self.calls.append(call)
        if key in self.keys:
            held = self.keys[key]
            if kind == "set":
                held.sent = value
            else:
                call.low = held.acked
                call.high = held.sent if held.owner == client else None
        return call

    def note_size(self, size):
        self.empty += size == 0
        self.large += size > 65_536
        self.largest += size == LARGEST

    def end(self, call, answer):
        """An answer came."""
        call.end, call.answer = time.monotonic(), answer
        self.ended += 1
        self.longest = max(self.longest, call.end - call.begin)
        held = self.keys.get(call.key)
        if isinstance(answer, str) and answer.startswith("SERVER_ERROR"):
            self.refuse(call, held)
        elif call.kind == "set":
            self.sets += 1
            if answer != "STORED":
                self.fault(call, "an answer that a set has not")
            elif held is not None:
                held.acked = max(held.acked, call.value)
        elif call.kind == "get":
            self.gets += 1
            if held is not None:
                self.judge(call, held)

    def refuse(self, call, held):
        self.refusals += 1
        if not call.answer.endswith("out of memory storing object"):
            self.fault(call, "refused")
        if held is not None and call.kind == "set":
            held.refused.add(call.value)

    def judge(self, call, held):
        """A get is right where its version is not below the last one acknowledged before it began, nor above the last one sent before it ended."""
        found = call.answer or 0
        low, high = call.low, held.sent if call.high is None else call.high
        if call.prior is not None and call.prior.answer == "STORED":
            low = max(low, call.prior.value)
        if found in held.refused or not low <= found <= high:
            self.fault(call, f"a get of a version that is not within {low} and {high}")

    def fault(self, call, what):
        self.faults.append(f"{what}: {json.dumps(call.row())}")

    def judge_counters(self, finals):
        """Of each counter, by what the gateways show in the end: each number is told once, and the last counts each call that was answered."""
        for key, shown in finals.items():
            counted = [call for call in self.calls if call.key == key and call.kind == "incr"]
            told = [call.answer for call in counted if call.end is not None]
            open_calls = sum(call.end is None for call in counted)
            if len(set(told)) != len(told):
                self.faults.append(f"{key}: a number was told twice")
            if len(set(shown)) != 1 or shown[0] is None or not len(told) <= shown[0] <= len(told) + open_calls:
                self.faults.append(f"{key}: {len(told)} were counted and {open_calls} have no answer, and gateways show {shown}")
            elif told and max(told) > shown[0]:
                self.faults.append(f"{key}: {max(told)} was told, and gateways show {shown[0]}")

    def write(self, path):
        with open(path, "w") as record:
            for call in self.calls:
                record.write(json.dumps(call.row()) + "\n")
