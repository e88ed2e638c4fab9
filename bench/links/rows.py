"""The streams of crates/dialogues, worked out by the model and by hand: python3 bench/links/rows.py streams|told writes them, or what is told of each."""
import sys
from model import ACTS, ANSWERS, REPLIES, crc32c, frame_of, u16, u32, u64, u8

GROUP = bytes(range(16))
HELLO = (1, GROUP, (4, 2, 1024, 4096), ("d", 3), ("p", 1), 9)
HELLO_TEXT = ("Hello(Hello { version: 1, group: GroupId { high: 283686952306183, low: 579005069656919567 }, "
              "shape: Shape { k: 4, m: 2, blocks: 1024, block: 4096 }, from: DataNode(3), to: ParityNode(1), drawn: 9 })")
KEY = 'Key { bytes: b"key" }'


def summed(text, count=None):
    bytes_ = u32(len(text) if count is None else count) + text
    return bytes_ + u32(crc32c(bytes_))


def value(text): return f'Payload {{ bytes: b"{text}" }}'


# the messages: what stands in each text, and what it is called
SESSION, SESSION_TEXT = u8(1) + u8(1) + u64(4), "session: Session { leader: ParityNode(1), number: 4 }"
PUT = u64(7) + u8(2) + u64(9) + u8(3) + b"key" + u8(0) + u32(5) + u8(1) + u64(1000) + u32(16) + u32(3) + u32(3) + b"abc" + u8(1) + u32(32) + u32(8) + u8(0)
PUT_TEXT = (f'Update {{ number: 7, caller: 2, call: 9, key: {KEY}, body: Put {{ flags: 5, until: Some(1000), run: Run {{ at: 16, len: 3 }}, '
            f'delta: {value("abc")} }}, frees: Some(Run {{ at: 32, len: 8 }}), outcome: Stored }}')
GONE = u64(8) + u8(0) + u64(0) + u8(1) + b"k" + u8(1) + u8(0) + u8(1)
GONE_TEXT = 'Update { number: 8, caller: 0, call: 0, key: Key { bytes: b"k" }, body: Remove, frees: None, outcome: Deleted }'
HELD = u64(9) + u8(255) + u64(3) + u8(3) + b"key" + u8(2) + u8(0) + u8(0) + u8(2)
HELD_TEXT = f'Update {{ number: 9, caller: 255, call: 3, key: {KEY}, body: Touch {{ until: None }}, frees: None, outcome: Touched }}'
SUM = u64(10) + u8(1) + u64(2**64 - 1) + u8(3) + b"key" + u8(2) + u8(1) + u64(6) + u8(0) + u8(3) + u64(11)
SUM_TEXT = f'Update {{ number: 10, caller: 1, call: {2**64 - 1}, key: {KEY}, body: Touch {{ until: Some(6) }}, frees: None, outcome: Number(11) }}'
MESSAGES = [
    (u8(1) + u8(0) + u8(1) + PUT + u64(6), f"Update {{ rank: Rank(0), partition: Partition(1), update: {PUT_TEXT}, stable: 6 }}"),
    (u8(2) + u8(0) + u8(1) + u64(7), "Ack { rank: Rank(0), partition: Partition(1), number: 7 }"),
    (u8(3) + u8(2) + u8(0) + u64(2**64 - 1), f"Stable {{ rank: Rank(2), partition: Partition(0), number: {2**64 - 1} }}"),
    (u8(4) + u8(1) + u8(0) + u64(6) + u16(3) + GONE + HELD + SUM,
     f"Adopt {{ rank: Rank(1), partition: Partition(0), base: 6, list: UpdateList {{ updates: [{GONE_TEXT}, {HELD_TEXT}, {SUM_TEXT}] }} }}"),
    (u8(5) + SESSION + u32(17) + u8(2) + u8(0) + u8(255), f"ReadBlock {{ {SESSION_TEXT}, block: 17, rows: RowList {{ rows: [0, 255] }} }}"),
    (u8(6) + SESSION + u32(4) + b"0123" + u64(6), f'Block {{ {SESSION_TEXT}, bytes: ByteList {{ bytes: [48, 49, 50, 51] }}, number: 6 }}'),
    (u8(7) + SESSION + u8(2) + u32(17) + u8(0) + u64(6), f"Mark {{ {SESSION_TEXT}, rank: Rank(2), block: 17, partition: Partition(0), number: 6 }}"),
    (u8(8) + SESSION + u32(0) + u8(2) + u64(6) + u64(0), f'Row {{ {SESSION_TEXT}, bytes: ByteList {{ bytes: [] }}, stamp: Stamp {{ numbers: [6, 0] }} }}'),
    (u8(9) + u64(4), "Cease { upto: 4 }"),
]

ITEM_TEXT = f'key: {KEY}, flags: 5, expiry: -1, value: {value("value")}'
ACT_ROWS = {
    "get": ((), f"Get {{ key: {KEY} }}"),
    "set": ((5, -1, b"value"), f"Set {{ {ITEM_TEXT} }}"),
    "add": ((5, -1, b"value"), f"Add {{ {ITEM_TEXT} }}"),
    "replace": ((5, -1, b"value"), f"Replace {{ {ITEM_TEXT} }}"),
    "cas": ((2**32 - 1, 60, 8, b""), f'Cas {{ key: {KEY}, flags: {2**32 - 1}, expiry: 60, cas: 8, value: {value("")} }}'),
    "delete": ((), f"Delete {{ key: {KEY} }}"),
    "touch": ((-2**63,), f"Touch {{ key: {KEY}, expiry: {-2**63} }}"),
    "append": ((b"v",), f'Append {{ key: {KEY}, value: {value("v")} }}'),
    "prepend": ((b"v",), f'Prepend {{ key: {KEY}, value: {value("v")} }}'),
    "incr": ((10,), f"Incr {{ key: {KEY}, by: 10 }}"),
    "decr": ((2**64 - 1,), f"Decr {{ key: {KEY}, by: {2**64 - 1} }}"),
}
REPLY_ROWS = {
    "value": ((5, 8, b"value"), f'Value(Item {{ flags: 5, cas: 8, value: {value("value")} }})'),
    "miss": ((), "Miss"), "stored": ((), "Stored"), "not_stored": ((), "NotStored"), "exists": ((), "Exists"), "not_found": ((), "NotFound"),
    "deleted": ((), "Deleted"), "touched": ((), "Touched"), "number": ((10,), "Number(10)"), "not_number": ((), "NotNumber"), "too_large": ((), "TooLarge"),
}
ANSWER_ROWS = [(("reply", (name, *fields)), f"Reply({text})") for name, (fields, text) in REPLY_ROWS.items()] + [
    (("ticket", 6), "Ticket(6)"), (("not_yet",), "NotYet"), (("no_space",), "NoSpace"),
    (("retry", ("pending", 2, 11)), "Retry(Pending { partition: Partition(2), number: 11 })"), (("retry", ("block", 12)), "Retry(Block { block: 12 })"),
    (("moved",), "Moved"), (("lost",), "Lost"), (("down",), "Down"), (("idle",), "Idle"), (("stranger",), "Stranger"), (("done",), "Done"),
    (("already_dead",), "AlreadyDead"), (("gone",), "Gone"), (("stale", 13), "Stale(13)"),
]

PING, PING_TEXT = frame_of(("ping", 5)), "Ping(5); "


def ask(act, text): return frame_of(("ask", 7, 3, 1000, act)), f"Request(Request {{ caller: 7, call: 3, wish: Ask(Op {{ moment: 1000, act: {text} }}) }})"


def told(answer, text): return frame_of(("told", 7, 4, True, answer)), f"Told(Told {{ caller: 7, call: 4, traced: true, answer: {text} }})"


def whole():
    """One frame each: its bytes, and what it is called."""
    for text, name in MESSAGES:
        yield summed(text), f"Message({name})"
    yield frame_of(("hello", *HELLO)), HELLO_TEXT
    yield frame_of(("said", 63)), "Said(NameSet(63))"
    yield PING, "Ping(5)"
    yield frame_of(("pong", 2**64 - 1)), f"Pong({2**64 - 1})"
    for name, (fields, text) in ACT_ROWS.items():
        yield ask((name, b"key", *fields), text)
    yield ask(("get", b"k" * 250), 'Get { key: Key { bytes: b"' + "k" * 250 + '" } }')
    yield frame_of(("ask", 255, 2**64 - 1, 2**62, ("get", b"key"))), f"Request(Request {{ caller: 255, call: {2**64 - 1}, wish: Ask(Op {{ moment: {2**62}, act: Get {{ key: {KEY} }} }}) }})"
    yield frame_of(("trace", 7, 9, 2)), "Request(Request { caller: 7, call: 9, wish: Trace(Partition(2)) })"
    for answer, text in ANSWER_ROWS:
        yield told(answer, text)
    yield frame_of(("told", 0, 0, False, ("moved",))), "Told(Told { caller: 0, call: 0, traced: false, answer: Moved })"


def wrong():
    """One bad frame each, and what is wrong with it."""
    yield "a sum with another bit", PING[:-1] + bytes([PING[-1] ^ 1])
    yield "a bit that isn't the sum's", PING[:9] + bytes([PING[9] ^ 16]) + PING[10:]
    yield "a sum of the header alone", PING[:-4] + u32(crc32c(PING[:4]))
    yield "a sum without the header", PING[:-4] + u32(crc32c(PING[4:-4]))
    yield "a sum from its lowest byte", PING[:-4] + PING[:-5:-1]
    yield "a length of 0", summed(b"")
    yield "a length above the limit", u32(134_217_729)
    yield "kind 0", summed(u8(0))
    yield "a notice of a death", summed(u8(10) + u8(1) + u8(0))
    yield "kind 18", summed(u8(18) + u64(5))
    yield "a name beyond the group", frame_of(("said", 64))
    yield "all names", frame_of(("said", 2**32 - 1))
    yield "a byte behind a ping", summed(u8(13) + u64(5) + u8(0))
    yield "a ping of seven bytes", summed(u8(13) + u64(5)[1:])
    yield "a byte behind a message", summed(MESSAGES[1][0] + u8(0))
    yield "a message that ends early", summed(MESSAGES[1][0][:-1])
    hello = frame_of(("hello", *HELLO))[4:-4]
    yield "another magic word", summed(hello[:8] + b"\r" + hello[9:])
    yield "no data process", summed(hello[:27] + u8(0) + hello[28:])
    yield "17 data processes", summed(hello[:27] + u8(17) + hello[28:])
    yield "5 parity processes", summed(hello[:28] + u8(5) + hello[29:])
    yield "no block", summed(hello[:29] + u32(0) + hello[33:])
    yield "too many blocks", summed(hello[:29] + u32(16385) + hello[33:])
    yield "a block of 24 bytes", summed(hello[:33] + u32(24) + hello[37:])
    yield "a process that is neither", summed(hello[:37] + u8(2) + hello[38:])
    asks = frame_of(("ask", 7, 3, 1000, ("get", b"key")))[4:-4]
    yield "a moment above 2^62", frame_of(("ask", 7, 3, 2**62 + 1, ("get", b"key")))
    yield "act 11", summed(asks[:18] + u8(len(ACTS)) + asks[19:])
    yield "an empty key", summed(asks[:19] + u8(0))
    yield "a key of 251 bytes", frame_of(("ask", 7, 3, 1000, ("get", b"k" * 251)))
    yield "a key with a space", frame_of(("ask", 7, 3, 1000, ("get", b"a b")))
    yield "a value of other length", summed(asks[:18] + u8(7) + asks[19:] + u32(2) + b"v")
    yield "a flag that is 2", summed(u8(17) + u8(7) + u64(4) + u8(2) + u8(5))
    yield "answer 14", summed(u8(17) + u8(7) + u64(4) + u8(0) + u8(len(ANSWERS)))
    yield "reply 11", summed(u8(17) + u8(7) + u64(4) + u8(0) + u8(0) + u8(len(REPLIES)))
    yield "cause 2", summed(u8(17) + u8(7) + u64(4) + u8(0) + u8(4) + u8(2))


def rows():
    """Titles, and streams with what is read of them."""
    yield "# one frame", None
    for frame, text in whole():
        yield frame, text + "; 0 left"
    yield "# streams that end between two frames, inside one, and before the first", None
    yield PING + frame_of(("said", 0)) + PING, PING_TEXT + "Said(NameSet(0)); " + PING_TEXT + "0 left"
    for cut in (1, 4, 5, 13, 16):
        yield PING + PING[:cut], PING_TEXT + f"{cut} left"
    yield u32(134_217_728) + b"\x06", "5 left"
    yield b"", "0 left"
    yield "# bad frames, alone, and between two that aren't", None
    for name, frame in wrong():
        yield "- " + name, None
        yield frame, "bad"
        yield PING + frame + PING, PING_TEXT + "bad"


if __name__ == "__main__":
    for row, text in rows():
        print(row if text is None else row.hex() if sys.argv[1] == "streams" else text)
