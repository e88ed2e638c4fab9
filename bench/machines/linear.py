"""Whether records of calls are those of registers: linear.py [--limit SECONDS] FILE.., or linear.py --test.

A line of a record is a JSON list [client, call, key, value, begin, end, answer], of one of these calls on a register, which holds nothing at first:

    get     the answer is what it holds, null where that is nothing
    set     the value is what it holds from then on, and the answer "STORED"
    incr    the answer is the number it holds and then the sum with the value, or "NOT_FOUND"
    delete  the answer is "DELETED" or "NOT_FOUND", and it holds nothing then

A call without an end (null) may have acted at any moment since it began, or not at all. A call that was refused (its answer begins with
"SERVER_ERROR") has not acted. The calls of each key are searched for an order that keeps their times and has these answers, by the algorithm of
Wing and Gong with Lowe's memoization. A line is printed for each key that has none, or for which none was found within the limit, in seconds of a
processor; the status is 1 where a key has none. It knows nothing of the program that made the records."""
import json
import sys
import time

LIMIT = 10.0
KINDS = ("get", "set", "incr", "delete")


class Call:
    """A call on a register, with its own bit."""

    def __init__(self, kind, value, begin, end, answer):
        self.kind, self.value, self.begin, self.end, self.answer = kind, value, begin, end, answer
        self.bit = 0

    def is_open(self):
        return self.end is None

    def is_harmless(self):
        """Whether the call leaves the register as it is wherever its answer is right."""
        return self.kind == "get" or self.answer == "NOT_FOUND"

    def after(self, state):
        """Whether the call's answer is right over a state, and the state behind it. An open call has no answer that could be wrong."""
        if self.kind == "get":
            return self.is_open() or self.answer == state, state
        if self.kind == "set":
            return self.is_open() or self.answer == "STORED", self.value
        if self.kind == "incr":
            told, state = ("NOT_FOUND", None) if state is None else (state + self.value,) * 2
            return self.is_open() or self.answer == told, state
        told = "NOT_FOUND" if state is None else "DELETED"
        return self.is_open() or self.answer == told, None


class Moment:
    """The begin or the end of a call, in a list of moments in their order."""

    def __init__(self, call, is_begin):
        self.call, self.is_begin, self.end = call, is_begin, None
        self.before = self.next = None

    def leave(self):
        self.before.next = self.next
        if self.next is not None:
            self.next.before = self.before

    def come_back(self):
        self.before.next = self
        if self.next is not None:
            self.next.before = self


def moments_of(calls):
    """The list of all moments, by an element in front of it. Of moments at one time begins come first, so that such calls are side by side."""
    times = []
    for at, call in enumerate(calls):
        begin, end = Moment(call, True), Moment(call, False)
        begin.end = end
        times += [(call.begin, 0, at, begin), (call.end, 1, at, end)]
    front = last = Moment(None, False)
    for *_, moment in sorted(times, key=lambda each: each[:3]):
        last.next, moment.before = moment, last
        last = moment
    return front


def next_calls(front, open_calls, used):
    """The calls that may act next: those that began before the first end that is left. Open ones come last: most have not acted."""
    at = front.next
    while at.is_begin:
        yield at, at.call
        at = at.next
    for call in open_calls:
        if call.begin <= at.call.end and not used & call.bit:
            yield None, call


class Seen:
    """What the search came to: which answered calls have acted, what the register holds, and the sets of open calls that had acted then."""

    def __init__(self):
        self.used = {}

    def adds(self, taken, state, used):
        """Whether this is new. It isn't where a part of these open calls was enough to come to the same: what is left over could do no less."""
        before = self.used.setdefault((taken, state), [])
        if any(each & used == each for each in before):
            return False
        before[:] = [each for each in before if each & used != used] + [used]
        return True


def is_linear(calls, limit=LIMIT):
    """True where the calls of one register have an order, False where they have none, None where neither was seen within the limit."""
    for at, call in enumerate(calls):
        call.bit = 1 << at
    closed = [call for call in calls if not call.is_open()]
    open_calls = [call for call in calls if call.is_open() and call.kind != "get"]
    front, until, steps = moments_of(closed), time.process_time() + limit, 0
    state, taken, used, seen, chosen = None, 0, 0, Seen(), []
    if not closed:
        return True
    turns = next_calls(front, open_calls, used)
    while True:
        steps += 1
        if steps % 4096 == 0 and time.process_time() > until:
            return None
        moment, call = next(turns, (None, None))
        if call is not None:
            is_right, behind = call.after(state)
            now = (taken, used | call.bit) if moment is None else (taken | call.bit, used)
            if not is_right or not seen.adds(now[0], behind, now[1]):
                continue
            # One that changes nothing in any order may always act first: nothing else has to be tried.
            chosen.append((moment, state, taken, used, iter(()) if moment and call.is_harmless() else turns))
            state, (taken, used) = behind, now
            if moment is not None:
                moment.leave()
                moment.end.leave()
                if front.next is None:
                    return True
            turns = next_calls(front, open_calls, used)
        elif chosen:
            moment, state, taken, used, turns = chosen.pop()
            if moment is not None:
                moment.end.come_back()
                moment.come_back()
        else:
            return False


def keys_of(records):
    """The calls of each key that may have acted."""
    keys = {}
    for _, kind, key, value, begin, end, answer in records:
        if kind not in KINDS:
            raise ValueError(f"no call of a register: {kind}")
        if not (isinstance(answer, str) and answer.startswith("SERVER_ERROR")):
            keys.setdefault(key, []).append(Call(kind, value, begin, end, answer))
    return keys


def judge(records, limit=LIMIT):
    """The keys that have no order, and those for which none was found."""
    verdicts = {key: is_linear(calls, limit) for key, calls in sorted(keys_of(records).items())}
    return [key for key in verdicts if verdicts[key] is False], [key for key in verdicts if verdicts[key] is None]


def main(words):
    if words == ["--test"]:
        import linear_rows
        return linear_rows.run()
    limit = LIMIT
    if words[:1] == ["--limit"]:
        limit, words = float(words[1]), words[2:]
    wrong = 0
    for path in words:
        with open(path) as lines:
            bad, open_ones = judge([json.loads(line) for line in lines], limit)
        for key in bad:
            print(f"{path}: {key} has no order")
        for key in open_ones:
            print(f"{path}: {key}: none was found within {limit} s")
        wrong += len(bad)
    return 1 if wrong else 0


if __name__ == "__main__":
    sys.exit(main(sys.argv[1:]))
