"""The lines that members told of themselves, as actions."""
import collections
import os

Request = collections.namedtuple("Request", "caller call wish")


class Bad(Exception):
    """What a history must not have."""


class Action:
    """A line: which member did what, and what came of it."""

    __slots__ = ("by", "place", "verb", "words", "answer", "settled", "look", "moment")

    def __init__(self, by, place, text):
        parts = [part.strip() for part in text.split("|")]
        self.by, self.place = by, place
        self.verb, *self.words = parts[0].split(" ")
        self.answer = self.settled = self.look = None
        self.moment = 0
        rest = parts[1:]
        if self.verb in ("ask_here", "trace_here", "treat", "learn", "collect", "show"):
            self.answer, rest = rest[0], rest[1:]
        if rest:
            numbers = [int(each) for each in rest[0].split()]
            self.settled = list(zip(numbers[::2], numbers[1::2]))
            at, data = rest[2].split(" ")
            self.look = at, f"shown {','.join(rest[1].split())} {data}"

    def number(self, at):
        return int(self.words[at])

    def request(self, at):
        """A call by its caller and its position, and what is wished of it: an ask with its moment and op, or a trace of a partition."""
        return Request(self.number(at), self.number(at + 1), " ".join(self.words[at + 2:]))

    def where(self):
        return f"{self.by}, line {self.place}: {self.verb} {' '.join(self.words)[:80]}"


def actions_of(name, text):
    """The actions of a member, each with the moment of its turn. What stands behind the last turn was never told to anybody."""
    told, turn = [], []
    for place, line in enumerate(text.split("\n")[:-1], 1):
        line = line.rstrip(" ")
        if line.startswith("turn "):
            moment = int(line.split(" ")[1])
            for action in turn:
                action.moment = moment
            told, turn = told + turn, []
        elif line:
            turn.append(Action(name, place, line))
    return told


def read(folder, names):
    """The texts of all members of a group. One that never started told nothing."""
    texts = {}
    for name in names:
        path = os.path.join(folder, name + ".output")
        texts[name] = ""
        if os.path.exists(path):
            with open(path, errors="replace") as text:
                texts[name] = text.read()
    return texts
