"""Changed histories, each of which has to be refused. A change is a function of the members' lines and of what draws; it gives nothing where no line
can be changed so."""
import os
import random

from check import check
from lines import Bad

WANTED = bool(os.environ.get("CHANGED"))


def refuse_all(program, shape, texts, seed):
    """How many changes of a right history are refused, which all have to be."""
    count = 0
    for change in CHANGES:
        lines = {name: text.split("\n") for name, text in texts.items()}
        draw = random.Random(f"{seed} {change.__name__}")
        if not change(lines, draw):
            print(f"  {change.__name__}: nothing to change", flush=True)
            continue
        try:
            check(program, shape, {name: "\n".join(each) for name, each in lines.items()})
        except Bad as bad:
            print(f"  {change.__name__}: refused: {str(bad)[:160]}", flush=True)
            count += 1
        else:
            raise Bad(f"{change.__name__}: not refused")
    return count


def found(lines, holds):
    """The places of lines."""
    return [(name, at) for name in sorted(lines) for at, line in enumerate(lines[name]) if holds(line)]


def told_alike(lines, draw, wanted, part):
    """An answer is changed wherever its call was told it."""
    shown = [place for place in found(lines, lambda line: line.startswith("show ") and wanted in line)]
    if not shown:
        return False
    name, at = draw.choice(shown)
    head, answer = lines[name][at].rstrip(" ").split(" | ")
    _, caller, _, position = head.rstrip(" ").split(" ")[:4]
    words = answer.split(" ")
    words[part] = other(words[part])
    for name, at in found(lines, lambda line: f"| {answer} " in line + " "):
        verb, *rest = lines[name][at].split(" ")
        call = [rest[0], rest[2]] if verb == "show" else rest[1:3] if verb == "learn" else rest[:2]
        if call == [caller, position]:
            lines[name][at] = lines[name][at].replace(f"| {answer}", f"| {' '.join(words)}")
    return True


def other(word):
    return str(int(word) + 1) if word.isdigit() and len(word) < 18 else word[:-1] + ("0" if word[-1] != "0" else "1")


def a_value_that_is_shown(lines, draw):
    return told_alike(lines, draw, "| reply value ", 4)


def a_cas_number(lines, draw):
    return told_alike(lines, draw, "| reply value ", 3)


def a_counted_number(lines, draw):
    return told_alike(lines, draw, "| reply number ", 2)


def swapped(lines, draw, places):
    """A line changes places with the next."""
    if not places:
        return False
    name, at = draw.choice(places)
    lines[name][at], lines[name][at + 1] = lines[name][at + 1], lines[name][at]
    return True


def two_messages_in_the_other_order(lines, draw):
    def sent(line):
        return line.split(" ")[1:3] if line.startswith("receive ") else None
    return swapped(lines, draw, [(name, at) for name in sorted(lines) for at, (a, b) in enumerate(zip(lines[name], lines[name][1:]))
                                 if sent(a) and sent(b) and sent(a)[0] == sent(b)[0] and sent(a) != sent(b)])


def dropped(lines, draw, verb, behind):
    """A line of a verb is left out that has a later one with the same other member."""
    places = [(name, at) for name, at in found(lines, lambda line: line.startswith(verb + " "))
              if any(later.startswith(" ".join(lines[name][at].split(" ")[:2]) + " ") for later in lines[name][at + 1:at + 1 + behind])]
    if not places:
        return False
    name, at = draw.choice(places[:len(places) // 2 + 1])
    del lines[name][at]
    return True


def a_message_that_was_sent(lines, draw):
    return dropped(lines, draw, "hand_out", 100)


def a_message_that_was_received(lines, draw):
    return dropped(lines, draw, "receive", 100)


def a_request_that_was_read(lines, draw):
    return dropped(lines, draw, "read", 1000)


def word_changed(lines, draw, verb, at_word, of=None):
    places = found(lines, lambda line: line.startswith(verb + " ") and (of is None or of in line))
    if not places:
        return False
    name, at = draw.choice(places)
    words = lines[name][at].split(" ")
    words[at_word] = other(words[at_word])
    lines[name][at] = " ".join(words)
    return True


def the_position_of_an_ask(lines, draw):
    return word_changed(lines, draw, "ask_here", 2)


def a_later_ping(lines, draw):
    """An answer is shown by a ping that wasn't sent."""
    places = found(lines, lambda line: line.startswith("show "))
    if not places:
        return False
    name, at = draw.choice(places)
    words = lines[name][at].split(" ")
    words[2] = str(10**9)
    lines[name][at] = " ".join(words)
    return True


def an_earlier_ping(lines, draw):
    """An answer is shown by the first ping of all, which was sent before it was told."""
    places = found(lines, lambda line: line.startswith("show ") and int(line.split(" ")[2]) > 2)
    if not places:
        return False
    name, at = draw.choice(places)
    words = lines[name][at].split(" ")
    words[2] = "0"
    lines[name][at] = " ".join(words)
    return True


def what_settled(lines, draw):
    """An update is left out that settled by a message."""
    def has_settled(line):
        return line.startswith("receive ") and line.split("|")[1].strip()
    places = found(lines, has_settled)
    if not places:
        return False
    name, at = draw.choice(places)
    head, _, *rest = lines[name][at].split("|")
    lines[name][at] = "|".join([head, " ", *rest])
    return True


def last_look(lines, change):
    """What the member that told most shows last of its process."""
    name = max(sorted(lines), key=lambda each: len(lines[each]))
    places = [at for at, line in enumerate(lines[name]) if line.startswith(("receive ", "treat ", "ask_here ", "take "))]
    if not places:
        return False
    *front, stamp, look = lines[name][places[-1]].split("|")
    lines[name][places[-1]] = "|".join([*front, *change(stamp.split(), look.split())])
    return True


def the_last_stamp(lines, draw):
    return last_look(lines, lambda stamp, look: (f" {' '.join([*stamp[:-1], other(stamp[-1])])} ", f" {' '.join(look)} "))


def the_last_bytes(lines, draw):
    return last_look(lines, lambda stamp, look: (f" {' '.join(stamp)} ", f" {look[0]} {other(look[1])} "))


def moved_up(lines, verb, before):
    """A line stands before the last that begins so in front of it."""
    for name in sorted(lines):
        for at, line in enumerate(lines[name]):
            if line.startswith(verb + " ") and len(line.split()) > 1:
                places = [n for n in range(at) if lines[name][n].startswith(before + " ")]
                if places:
                    lines[name].insert(places[-1], lines[name].pop(at))
                    return True
    return False


def a_permit_too_early(lines, draw):
    return moved_up(lines, "permit", "hear")


def a_death_taken_too_early(lines, draw):
    return moved_up(lines, "take", "permit")


def a_call_given_up_too_early(lines, draw):
    return moved_up(lines, "give_up", "take")


CHANGES = [a_value_that_is_shown, a_cas_number, a_counted_number, two_messages_in_the_other_order, a_message_that_was_sent, a_message_that_was_received,
           a_request_that_was_read, the_position_of_an_ask, a_later_ping, an_earlier_ping, what_settled, the_last_stamp, the_last_bytes, a_permit_too_early,
           a_death_taken_too_early, a_call_given_up_too_early]
