"""Frames of links, written from docs/LANGUAGE.md's tables and apart from the codec: what bytes a frame has, and what a link reads of
bytes. A frame is a tuple of the name of its kind and its fields. Run alone it writes a row for each kind: its bytes in hexadecimal."""
import struct

ACTS = ["get", "set", "add", "replace", "cas", "delete", "touch", "append", "prepend", "incr", "decr"]
REPLIES = ["value", "miss", "stored", "not_stored", "exists", "not_found", "deleted", "touched", "number", "not_number", "too_large"]
ANSWERS = ["reply", "ticket", "not_yet", "no_space", "retry", "moved", "lost", "down", "idle", "stranger", "done", "already_dead", "gone", "stale"]
MOST, SPACE = 134_217_728, 67_108_864


def crc32c(data):
    register = 0xFFFFFFFF
    for byte in data:
        register ^= byte
        for _ in range(8):
            register = register >> 1 ^ (0x82F63B78 if register & 1 else 0)
    return register ^ 0xFFFFFFFF


def u8(n): return struct.pack(">B", n)
def u16(n): return struct.pack(">H", n)
def u32(n): return struct.pack(">I", n)
def u64(n): return struct.pack(">Q", n)
def i64(n): return struct.pack(">q", n)
def process(p): return u8("dp".index(p[0])) + u8(p[1])
def key(k): return u8(len(k)) + k
def bytes_of(v): return u32(len(v)) + v


def act_text(act):
    name, k, *more = act
    text = u8(ACTS.index(name)) + key(k)
    if name in ("set", "add", "replace"):
        flags, expiry, value = more
        return text + u32(flags) + i64(expiry) + bytes_of(value)
    if name == "cas":
        flags, expiry, cas, value = more
        return text + u32(flags) + i64(expiry) + u64(cas) + bytes_of(value)
    if name == "touch":
        return text + i64(more[0])
    if name in ("append", "prepend"):
        return text + bytes_of(more[0])
    if name in ("incr", "decr"):
        return text + u64(more[0])
    return text


def answer_text(answer):
    name, *more = answer
    text = u8(ANSWERS.index(name))
    if name == "reply":
        reply, *fields = more[0]
        text += u8(REPLIES.index(reply))
        if reply == "value":
            text += u32(fields[0]) + u64(fields[1]) + bytes_of(fields[2])
        if reply == "number":
            text += u64(fields[0])
    if name in ("ticket", "stale"):
        text += u64(more[0])
    if name == "retry":
        cause, *fields = more[0]
        text += u8(0) + u8(fields[0]) + u64(fields[1]) if cause == "pending" else u8(1) + u32(fields[0])
    return text


def text_of(frame):
    kind, *f = frame
    if kind == "message":
        return f[0]
    if kind == "hello":
        version, group, (k, m, blocks, block), src, dst, drawn = f
        return u8(11) + b"cocytus\n" + u16(version) + group + u8(k) + u8(m) + u32(blocks) + u32(block) + process(src) + process(dst) + u64(drawn)
    if kind == "said":
        return u8(12) + u32(f[0])
    if kind in ("ping", "pong"):
        return u8(13 if kind == "ping" else 14) + u64(f[0])
    if kind == "ask":
        caller, call, moment, act = f
        return u8(15) + u8(caller) + u64(call) + u64(moment) + act_text(act)
    if kind == "trace":
        return u8(16) + u8(f[0]) + u64(f[1]) + u8(f[2])
    caller, call, traced, answer = f
    return u8(17) + u8(caller) + u64(call) + u8(traced) + answer_text(answer)


def frame_of(frame):
    text = text_of(frame)
    bytes_ = u32(len(text)) + text
    return bytes_ + u32(crc32c(bytes_))


class NoSpelling(Exception):
    pass


class Reader:
    def __init__(self, data):
        self.data, self.at = data, 0

    def take(self, n):
        if len(self.data) - self.at < n:
            raise NoSpelling
        self.at += n
        return self.data[self.at - n:self.at]

    def number(self, n): return int.from_bytes(self.take(n), "big")

    def signed(self): return int.from_bytes(self.take(8), "big", signed=True)

    def pick(self, names):
        n = self.number(1)
        if n >= len(names):
            raise NoSpelling
        return names[n]

    def process(self): return (self.pick("dp"), self.number(1))

    def key(self):
        k = self.take(self.number(1))
        if not 1 <= len(k) <= 250 or any(b <= 32 or b == 127 for b in k):
            raise NoSpelling
        return k

    def long(self): return self.take(self.number(4))

    def value(self):
        v = self.long()
        if len(v) > SPACE:
            raise NoSpelling
        return v

    def option(self, read): return read() if self.pick([False, True]) else None

    def run(self): return (self.number(4), self.number(4))

    def update(self):
        fields = [self.number(8), self.number(1), self.number(8), self.key()]
        body = self.number(1)
        if body == 0:
            fields += [self.number(4), self.option(lambda: self.number(8)), self.run(), self.long()]
            if len(fields[-1]) != fields[-2][1]:
                raise NoSpelling
        elif body == 2:
            fields.append(self.option(lambda: self.number(8)))
        elif body != 1:
            raise NoSpelling
        fields.append(self.option(self.run))
        if self.pick([0, 1, 2, 3]) == 3:
            fields.append(self.number(8))
        return fields

    def message(self, kind):
        session = lambda: (self.process(), self.number(8))
        n = self.number
        if kind == 1:
            n(1), n(1), self.update(), n(8)
        elif kind in (2, 3):
            n(1), n(1), n(8)
        elif kind == 4:
            n(1), n(1), n(8)
            for _ in range(n(2)):
                self.update()
        elif kind == 5:
            session(), n(4), self.take(n(1))
        elif kind == 6:
            session(), self.long(), n(8)
        elif kind == 7:
            session(), n(1), n(4), n(1), n(8)
        elif kind == 8:
            session(), self.long(), self.take(8 * n(1))
        elif kind == 9:
            n(8)
        else:
            raise NoSpelling
        return ("message", self.data)

    def hello(self):
        if self.take(8) != b"cocytus\n":
            raise NoSpelling
        version, group = self.number(2), self.take(16)
        k, m, blocks, block = self.number(1), self.number(1), self.number(4), self.number(4)
        if not (1 <= k <= 16 and m <= 4 and 16 <= block <= 65536 and block & block - 1 == 0 and 1 <= blocks and blocks * block <= SPACE):
            raise NoSpelling
        return ("hello", version, group, (k, m, blocks, block), self.process(), self.process(), self.number(8))

    def act(self):
        name = self.pick(ACTS)
        k = self.key()
        if name in ("set", "add", "replace"):
            return (name, k, self.number(4), self.signed(), self.value())
        if name == "cas":
            return (name, k, self.number(4), self.signed(), self.number(8), self.value())
        if name == "touch":
            return (name, k, self.signed())
        if name in ("append", "prepend"):
            return (name, k, self.value())
        if name in ("incr", "decr"):
            return (name, k, self.number(8))
        return (name, k)

    def answer(self):
        name = self.pick(ANSWERS)
        if name == "reply":
            reply = self.pick(REPLIES)
            if reply == "value":
                return (name, (reply, self.number(4), self.number(8), self.value()))
            return (name, (reply, self.number(8)) if reply == "number" else (reply,))
        if name in ("ticket", "stale"):
            return (name, self.number(8))
        if name == "retry":
            return (name, ("pending", self.number(1), self.number(8)) if self.pick([0, 1]) == 0 else ("block", self.number(4)))
        return (name,)

    def frame(self, names):
        kind = self.number(1)
        if kind < 10:
            return self.message(kind)
        if kind == 11:
            return self.hello()
        if kind == 12:
            said = self.number(4)
            if said >> names:
                raise NoSpelling
            return ("said", said)
        if kind in (13, 14):
            return ("ping" if kind == 13 else "pong", self.number(8))
        if kind == 15:
            caller, call, moment = self.number(1), self.number(8), self.number(8)
            if moment > 1 << 62:
                raise NoSpelling
            return ("ask", caller, call, moment, self.act())
        if kind == 16:
            return ("trace", self.number(1), self.number(8), self.number(1))
        if kind == 17:
            return ("told", self.number(1), self.number(8), self.pick([False, True]), self.answer())
        raise NoSpelling


def read(stream, names):
    """The frames of a stream, how many bytes are left of one that isn't whole, and whether one is bad."""
    frames, at = [], 0
    while len(stream) - at >= 4:
        count = int.from_bytes(stream[at:at + 4], "big")
        if not 1 <= count <= MOST:
            return frames, None, True
        if len(stream) - at < 8 + count:
            break
        body = stream[at:at + 4 + count]
        reader = Reader(body[4:])
        try:
            if int.from_bytes(stream[at + 4 + count:at + 8 + count], "big") != crc32c(body):
                raise NoSpelling
            frame = reader.frame(names)
            if reader.at != len(reader.data):
                raise NoSpelling
        except NoSpelling:
            return frames, None, True
        frames.append(frame)
        at += 8 + count
    return frames, len(stream) - at, False


GROUP = bytes(range(16))
ROWS = [
    ("message", bytes.fromhex("0200010000000000000007")),
    ("hello", 1, GROUP, (4, 2, 1024, 4096), ("d", 0), ("p", 1), 9),
    ("said", 33),
    ("ping", 5),
    ("pong", 5),
    ("ask", 7, 3, 1000, ("get", b"k")),
    ("ask", 7, 4, 1000, ("set", b"key", 5, -1, b"value")),
    ("ask", 7, 5, 1000, ("cas", b"key", 5, 60, 8, b"")),
    ("ask", 7, 6, 1000, ("touch", b"key", -2)),
    ("ask", 7, 7, 1000, ("append", b"key", b"v")),
    ("ask", 7, 8, 1000, ("incr", b"key", 10)),
    ("trace", 7, 9, 2),
    ("told", 7, 3, False, ("reply", ("value", 5, 8, b"value"))),
    ("told", 7, 4, True, ("reply", ("number", 10))),
    ("told", 7, 5, False, ("ticket", 6)),
    ("told", 7, 6, False, ("retry", ("pending", 2, 11))),
    ("told", 7, 7, False, ("retry", ("block", 12))),
    ("told", 7, 8, False, ("moved",)),
    ("told", 7, 9, True, ("stale", 13)),
]

if __name__ == "__main__":
    assert crc32c(b"123456789") == 0xE3069283
    for row in ROWS:
        frame = frame_of(row)
        assert read(frame, 6) == ([row], 0, False), row
        print(frame.hex(), row[0])
