"""Records whose verdict is known, for `linear.py --test`: rows by hand, each with one answer changed; random ones beside a search through all orders;
long ones that a register made, each with one answer changed."""
import itertools
import random
import time

from linear import Call, is_linear

# What it is, the calls (call, value, begin, end, answer), and which call's answer is changed to what, so that it is wrong.
ROWS = [
    ("one after another", [("set", 1, 0, 1, "STORED"), ("get", None, 2, 3, 1)], 1, None),
    ("a get of an older value", [("set", 1, 0, 1, "STORED"), ("set", 2, 2, 3, "STORED"), ("get", None, 4, 5, 2)], 2, 1),
    ("a get of a value that nobody set", [("set", 1, 0, 1, "STORED"), ("get", None, 0, 3, 1)], 1, 7),
    ("gets beside a set", [("set", 1, 0, 9, "STORED"), ("get", None, 1, 2, None), ("get", None, 3, 4, 1), ("get", None, 5, 6, 1)], 3, None),
    ("a set without an answer", [("set", 1, 0, None, None), ("get", None, 1, 2, None), ("get", None, 5, 6, 1), ("get", None, 7, 8, 1)], 3, None),
    ("a set that is not answered is never seen", [("set", 1, 0, None, None), ("set", 2, 1, 2, "STORED"), ("get", None, 5, 6, 2)], 2, None),
    ("a counter", [("set", 0, 0, 1, "STORED"), ("incr", 1, 2, 5, 1), ("incr", 1, 2, 5, 2), ("get", None, 6, 7, 2)], 2, 1),
    ("one count without an answer", [("set", 0, 0, 1, "STORED"), ("incr", 1, 2, None, None), ("incr", 1, 3, 4, 1), ("get", None, 6, 7, 2)], 3, 3),
    ("a number that is told before an earlier one", [("set", 0, 0, 1, "STORED"), ("incr", 1, 2, 3, 1), ("incr", 1, 4, 5, 2)], 1, 2),
    ("nothing to count", [("incr", 1, 0, 1, "NOT_FOUND"), ("set", 4, 2, 3, "STORED"), ("incr", 2, 4, 5, 6)], 2, "NOT_FOUND"),
    ("deleted once", [("set", 1, 0, 1, "STORED"), ("delete", None, 2, 3, "DELETED"), ("delete", None, 4, 5, "NOT_FOUND")], 2, "DELETED"),
    ("deleted by the one whose answer is not known", [("set", 1, 0, 1, "STORED"), ("delete", None, 2, None, None), ("get", None, 4, 5, None)], 2, 2),
]


def calls_of(rows):
    return [Call(*row) for row in rows]


def changed(rows, at, answer):
    return [row if each != at else (*row[:4], answer) for each, row in enumerate(rows)]


def is_linear_by_all_orders(calls):
    """The same by trying all orders of all that was answered, with each choice of the others."""
    closed, others = [c for c in calls if not c.is_open()], [c for c in calls if c.is_open()]
    for size in range(len(others) + 1):
        for some in itertools.combinations(others, size):
            if any(holds(order) for order in itertools.permutations([*closed, *some])):
                return True
    return False


def holds(order):
    state = None
    for at, call in enumerate(order):
        if any(not later.is_open() and later.end < call.begin for later in order[at + 1:]):
            return False
        is_right, state = call.after(state)
        if not is_right:
            return False
    return True


def random_calls(rng):
    """A few calls with answers that may be right."""
    rows = []
    for number in range(rng.randint(1, 5)):
        begin = rng.randrange(12)
        end = None if rng.random() < 0.2 else begin + rng.randrange(6)
        kind, value = rng.choice(["get", "set", "incr", "delete"]), rng.randrange(1, 3)
        answers = {"get": [None, 1, 2, 3], "set": ["STORED"], "incr": ["NOT_FOUND", 2, 3, 4], "delete": ["DELETED", "NOT_FOUND"]}
        answer = rng.choice(answers[kind])
        rows.append((kind, value, begin, end, None if end is None else answer))
    return rows


def made_by_a_register(rng, count):
    """Calls of a register, each of which acted at a moment between its begin and its end. Each set has a value of its own."""
    state, rows = None, []
    for number in range(count):
        moment = 10.0 * number
        begin, end = moment - rng.random() * 40, moment + rng.random() * 40
        call = Call(rng.choice(["get", "get", "set", "incr", "delete"]), None, begin, None, None)
        call.value = 1000 * (number + 1) if call.kind == "set" else 1
        answer = {"get": state, "set": "STORED", "delete": "NOT_FOUND" if state is None else "DELETED"}.get(call.kind)
        _, state = call.after(state)
        if call.kind == "incr":
            answer = "NOT_FOUND" if state is None else state
        rows.append((call.kind, call.value, begin, *((None, None) if rng.random() < 0.004 else (end, answer))))
    return rows


def run():
    faults = []
    for name, rows, at, answer in ROWS:
        if is_linear(calls_of(rows)) is not True:
            faults.append(f"{name}: refused")
        if is_linear(calls_of(changed(rows, at, answer))) is not False:
            faults.append(f"{name}, with one answer changed: taken")
    rng, found = random.Random(11), {True: 0, False: 0}
    for number in range(3000):
        rows = random_calls(rng)
        verdict = is_linear(calls_of(rows))
        found[verdict] += 1
        if verdict != is_linear_by_all_orders(calls_of(rows)):
            faults.append(f"unlike the search through all orders: {rows}")
    slowest = 0.0
    for number in range(40):
        rows = made_by_a_register(rng, 1000)
        began = time.process_time()
        if is_linear(calls_of(rows)) is not True:
            faults.append(f"made by a register, {number}: refused")
        slowest = max(slowest, time.process_time() - began)
        at = rng.choice([at for at, row in enumerate(rows) if row[0] == "incr" and isinstance(row[4], int)])
        if is_linear(calls_of(changed(rows, at, rows[at][4] + 500))) is not False:
            faults.append(f"made by a register, {number}, with one answer changed: taken")
    for fault in faults[:10]:
        print(fault)
    print(f"{len(ROWS)} rows, each with one answer changed too; 3000 random ones ({found[True]} right, {found[False]} wrong); "
          f"40 of 1000 calls, the slowest {slowest:.2f} s: {len(faults)} faults")
    return 1 if faults else 0
