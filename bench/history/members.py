"""What a member may do, by what it has cut, heard, asked and read: each action of a history is held against that."""
import collections

from lines import Bad, actions_of

COMES = {"receive": "hand_out", "read": "send", "learn": "tell", "hear": "say", "pong": "ping", "count": "pong"}


class Call:
    """A call that is open at its gateway: its moment and op, where it stands, and at whom."""

    def __init__(self, op):
        self.op, self.position, self.stage, self.at, self.answer, self.pinged = op, None, "unasked", None, None, None

    def told(self, position, traced, answer, pinged):
        """It learns what it was told, where it waits for that: a reply and the want of space are answers, all else is asked again."""
        if position != self.position or self.stage != ("traced" if traced else "asked"):
            return
        if answer.startswith("reply ") or answer == "no_space":
            self.stage, self.answer, self.pinged = "answered", answer, pinged
        else:
            self.stage = "unknown" if traced and answer != "gone" else "unasked"

    def given_up(self):
        is_get = self.op.split(" ")[1] == "get"
        self.stage = "unasked" if self.stage == "asked" and is_get else "unknown"


class Member:
    def __init__(self, name, text):
        self.name, self.actions, self.next = name, actions_of(name, text), 0
        self.cut, self.permitted, self.taken, self.heard = set(), set(), set(), collections.defaultdict(set)
        self.pinged, self.answered = 0, {}
        self.calls, self.positions, self.parked, self.due = {}, collections.Counter(), [], []


def expect(holds, action, what):
    if not holds:
        raise Bad(f"{what}: {action.where()}")


class Members:
    """The members of a group, with what each sent another that nobody has read. A subclass hears the events of the machine."""

    def __init__(self, k, m, texts):
        self.k, self.m = k, m
        self.names = [f"d{n}" for n in range(k)] + [f"p{n}" for n in range(m)]
        self.members = {name: Member(name, texts[name]) for name in self.names}
        self.wires = collections.defaultdict(collections.deque)

    def gateway(self, caller):
        return self.names[caller // (256 // len(self.names))]

    def has_come(self, member):
        """Whether what a member's next action reads was sent."""
        action = member.actions[member.next]
        return action.verb not in COMES or bool(self.wires[action.words[0], member.name])

    def put(self, member, other, *what):
        if other not in member.cut:
            self.wires[member.name, other].append(what)

    def take_first(self, member, action):
        """What is read is the first of what was sent."""
        sender, verb = action.words[0], COMES[action.verb]
        expect(sender not in member.cut, action, "read from one that is cut")
        what = {"send": lambda: action.request(1), "tell": lambda: (*action.words[1:], action.answer),
                "say": lambda: frozenset(action.words[1:])}.get(verb, lambda: action.words[1])()
        sent = self.wires[sender, member.name].popleft()
        expect((verb, what) == sent, action, f"{sender} sent {sent}")

    def tell(self, member, request, traced, answer):
        """What a call is told goes to its gateway, but for a ticket."""
        to = self.gateway(request.caller)
        if answer.startswith("ticket "):
            return
        if to == member.name:
            self.learned(member, request.caller, request.call, traced, answer)
        else:
            self.put(member, to, "tell", (str(request.caller), str(request.call), "traced" if traced else "asked", answer))

    def learned(self, member, caller, position, traced, answer):
        if caller in member.calls:
            member.calls[caller].told(position, traced, answer, member.pinged)

    def open_call(self, member, caller, action):
        expect(caller in member.calls, action, "no call is open there")
        return member.calls[caller]

    def ask_next(self, member, caller, position, action):
        """A call is asked under its caller's next position."""
        call = self.open_call(member, caller, action)
        expect(call.stage == "unasked", action, "this call isn't to be asked")
        expect(position == member.positions[caller], action, "another position than the next")
        member.positions[caller] += 1
        call.position, call.stage, call.at = position, "asked", member.name
        return call

    def trace_next(self, member, caller, position, action):
        call = self.open_call(member, caller, action)
        expect(call.stage == "unknown" and call.position == position, action, "this call isn't to be traced so")
        call.stage, call.at = "traced", member.name
        return call

    def may_show(self, member, call, action):
        """Whether what is shown was told before a ping that enough have answered."""
        ping = action.number(1)
        expect(call.stage == "answered" and call.position == action.number(2) and call.answer == action.answer, action, "shows what it wasn't told")
        enough = sum(name in member.taken or member.answered.get(name, -1) >= ping for name in self.names)
        expect(call.pinged <= ping < member.pinged and self.m <= enough, action, "shown by a ping that too few have answered")

    def may_permit(self, member, action):
        expect(set(action.words) == member.cut and len(member.cut) <= self.m, action, "permits another set than it has cut")
        silent = [name for name in self.names if name != member.name and name not in member.cut and not member.cut <= member.heard[name]]
        expect(not silent, action, f"permitted before {' '.join(silent)} said the set")
