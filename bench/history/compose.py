"""Composes the histories of a group's members to one list of events of the machine.

The members' actions are put into one order: that of each member is kept, and what comes of another stands behind its sending; between these the
moments decide. The events of members that haven't failed are the machine's. A permit stands for the failures of its set, and a call that is given up
and wasn't treated is asked of the member that failed, as lost."""
import collections
import zlib

from lines import Bad, Request
from members import COMES, Call, Members, expect


class Composed(Members):
    """The events as lines of a script, with what each has to answer and to log; what was shown; who failed. Of 1,000 looks at processes that members tell
    `looks` are compared with the machine's, and the last of each that hasn't failed."""

    def __init__(self, k, m, texts, looks=50):
        super().__init__(k, m, texts)
        self.looks, self.asked, self.failed, self.moment = looks, collections.Counter(), [], "0"
        self.events, self.shown, self.last, self.did, self.ghosts = [], [], {}, collections.Counter(), 0

    def compose(self):
        """All actions: the next is one that can come, of the earliest turn."""
        left = [each for each in self.members.values() if each.actions]
        while left:
            ready = [each for each in left if self.has_come(each)]
            if not ready:
                raise Bad(f"nobody sent what came: {left[0].actions[left[0].next].where()}")
            member = min(ready, key=lambda each: each.actions[each.next].moment)
            self.act_on(member, member.actions[member.next].moment)
            left = [each for each in left if each.next < len(each.actions)]
        for name in sorted(set(self.last) - set(self.failed)):
            self.look(name, *self.last[name])
        return self

    def act_on(self, member, moment):
        """The actions of a member up to a moment, as far as they can come."""
        while member.next < len(member.actions) and member.actions[member.next].moment == moment and self.has_come(member):
            action = member.actions[member.next]
            member.next += 1
            self.did[action.verb] += 1
            self.ghosts += member.name in self.failed
            if action.verb in COMES:
                self.take_first(member, action)
            getattr(self, "on_" + action.verb)(member, action)
            if action.look is not None:
                self.settle(member, action)

    def settle(self, member, action):
        member.due += action.settled
        if member.name not in self.failed:
            self.last[member.name] = action.look
            if zlib.crc32(action.where().encode()) % 1000 < self.looks:
                self.look(member.name, *action.look)

    def look(self, name, at, shown):
        self.event(f"show {name} {at} 32", shown)

    def event(self, line, answer, logged=(), where=""):
        self.events.append((line, answer, list(logged), where))

    def happens(self, member, line, action, logged=()):
        """An event of a member, unless it has failed."""
        if member.name not in self.failed:
            self.event(line, action.answer or "done", logged, action.where())

    def asks(self, member, request, op, action):
        """A call is asked at a member."""
        if member.name in self.failed:
            return
        expect(request.call == self.asked[request.caller], action, "a position that the machine has otherwise")
        self.ask(request.caller, member.name, op, action.answer, self.logged_by(request, action), action.where())

    def ask(self, caller, at, op, answer, logged, where):
        moment, act = op.split(" ", 1)
        if moment != self.moment:
            self.event(f"time {moment}", None)
            self.moment = moment
        self.asked[caller] += 1
        self.event(f"ask {caller} {at} {act}", answer, logged, where)

    def logged_by(self, request, action):
        own = (request.caller, request.call)
        return action.settled + ([own] if action.answer.startswith("reply ") and own not in action.settled else [])

    # What each action does.

    def on_begin(self, member, action):
        caller = action.number(0)
        expect(caller not in member.calls and self.gateway(caller) == member.name, action, "a caller with a call, or of another member")
        member.calls[caller] = Call(" ".join(action.words[1:]))

    def on_send(self, member, action):
        other, request = action.words[0], action.request(1)
        if request.wish.startswith("ask "):
            call = self.ask_next(member, request.caller, request.call, action)
            expect(request.wish == "ask " + call.op, action, "another op than began")
        else:
            call = self.trace_next(member, request.caller, request.call, action)
        call.at = other
        self.put(member, other, "send", request)

    def on_ask_here(self, member, action):
        request = Request(action.number(0), action.number(1), "")
        call = self.ask_next(member, request.caller, request.call, action)
        self.asks(member, request, call.op, action)
        self.tell(member, request, False, action.answer)

    def on_trace_here(self, member, action):
        request = Request(action.number(0), action.number(1), "")
        self.trace_next(member, request.caller, request.call, action)
        self.happens(member, f"trace {request.caller} {request.call} {action.words[2]} {member.name}", action)
        self.tell(member, request, True, action.answer)

    def on_read(self, member, action):
        member.parked.append(action.request(1))

    def on_treat(self, member, action):
        request = action.request(0)
        expect(request in member.parked, action, "a request that wasn't read")
        member.parked.remove(request)
        kind, wish = request.wish.split(" ", 1)
        if kind == "ask":
            self.asks(member, request, wish, action)
        else:
            self.happens(member, f"trace {request.caller} {request.call} {wish} {member.name}", action)
        self.tell(member, request, kind == "trace", action.answer)

    def on_collect(self, member, action):
        request = Request(action.number(0), action.number(1), "")
        expect((request.caller, request.call) in member.due, action, "a call that didn't settle")
        member.due.remove((request.caller, request.call))
        self.happens(member, f"collect {request.caller} {request.call} {member.name}", action)
        if action.answer.startswith("reply "):
            self.tell(member, request, False, action.answer)

    def on_receive(self, member, action):
        self.happens(member, f"deliver {action.words[0]} {member.name}", action, action.settled)

    def on_take(self, member, action):
        name = action.words[0]
        expect(name in member.permitted and name not in member.taken, action, "a death that isn't permitted, or was taken")
        member.taken.add(name)
        self.happens(member, f"deliver {name} {member.name}", action, action.settled)

    def on_flush(self, member, action):
        self.happens(member, f"flush {member.name}", action)

    def on_hand_out(self, member, action):
        self.put(member, action.words[0], "hand_out", action.words[1])

    def on_learn(self, member, action):
        self.learned(member, action.number(1), action.number(2), action.words[3] == "traced", action.answer)

    def on_cut(self, member, action):
        member.cut.add(action.words[0])

    def on_say(self, member, action):
        expect(set(action.words) == member.cut, action, "says another set than it has cut")
        self.put_all(member, self.names, "say", frozenset(action.words))

    def on_hear(self, member, action):
        member.heard[action.words[0]] |= set(action.words[1:])

    def on_permit(self, member, action):
        self.may_permit(member, action)
        member.permitted = set(member.cut)
        if member.name not in self.failed:
            for name in [name for name in action.words if name not in self.failed]:
                self.failed.append(name)
                self.event(f"fail {name} 0", "done", (), action.where())

    def on_ping(self, member, action):
        expect(action.number(0) == member.pinged, action, "another number than the next")
        member.pinged += 1
        self.put_all(member, action.words[1:], "ping", action.words[0])

    def put_all(self, member, names, *what):
        for name in names:
            if name != member.name:
                self.put(member, name, *what)

    def on_pong(self, member, action):
        self.put(member, action.words[0], "pong", action.words[1])

    def on_count(self, member, action):
        expect(action.number(1) < member.pinged, action, "a pong of no ping")
        member.answered[action.words[0]] = max(member.answered.get(action.words[0], -1), action.number(1))

    def on_give_up(self, member, action):
        call = self.open_call(member, action.number(0), action)
        expect(call.stage in ("asked", "traced") and call.at in member.taken, action, "given up before the death of whom it waits for was taken")
        if call.stage == "asked" and member.name not in self.failed and self.asked[action.number(0)] == call.position:
            self.ask(action.number(0), call.at, call.op, "lost", (), action.where())
        call.given_up()

    def on_show(self, member, action):
        call = self.open_call(member, action.number(0), action)
        self.may_show(member, call, action)
        self.shown.append((action.number(0), call.position, call.op, call.answer, action.where()))
        del member.calls[action.number(0)]

    def on_let_go(self, member, action):
        call = self.open_call(member, action.number(0), action)
        expect(call.stage not in ("asked", "traced"), action, "let go while it waits for a member")
        del member.calls[action.number(0)]
