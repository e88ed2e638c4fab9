"""Plays the events that a group's members composed, and compares what they and their clients were told with the machine's transcript and log."""
import collections
import subprocess

from compose import Composed
from lines import Bad

MOST = 16_000_000


def check(program, shape, texts, calls=(), looks=50):
    """What a history is worth: figures, or Bad."""
    k, m, blocks, block = shape
    composed = Composed(k, m, texts, looks).compose()
    script = f"group {k} {m} {blocks} {block}\n" + "".join(event[0] + "\n" for event in composed.events) + "places\n"
    if len(script) > MOST:
        raise Bad(f"a script of {len(script)} bytes is too long to be played")
    transcript = run(program, "play", script)
    log = compare(composed, transcript.split("\n"))
    compare_shown(composed, log)
    compare_clients(calls, log)
    verdict = run(program, "verify", f"{script}====\n{transcript}")
    if not verdict.startswith("verified "):
        raise Bad(f"not verified: {verdict}")
    did, lines = composed.did, [event[0] for event in composed.events]
    return {"actions": sum(did.values()), "ghosts": composed.ghosts, "events": len(lines), "logged": len(log), "shown": len(composed.shown),
            "heard": sum(row[5] is not None for row in calls), "failed": len(composed.failed), "given up": did["give_up"],
            "traced": sum(line.startswith("trace ") for line in lines), "looks": sum(line.startswith("show ") for line in lines)}


def run(program, command, text):
    done = subprocess.run([program, command], input=text, capture_output=True, text=True)
    if done.returncode:
        raise Bad(f"{command} ends with {done.returncode}: {done.stdout[-200:]}")
    return done.stdout


def compare(composed, lines):
    """Each event has the member's answer, and logs the calls that the member settled, but for those that settled at another head before. The log, by
    caller and call."""
    log, at = {}, 0
    for line, answer, logged, where in composed.events:
        if line.startswith("time "):
            continue
        said, at, entries = lines[at], at + 1, []
        while at < len(lines) and lines[at].startswith("= "):
            name, text = lines[at][2:].split(" ", 1)
            entries.append(tuple(int(each) for each in name.split(".")))
            log[entries[-1]], at = text, at + 1
        fresh = sorted(each for each in logged if each in entries or each not in log)
        if said != answer or sorted(entries) != fresh:
            raise Bad(f"{where or line}: the machine answers {said[:200]!r} to {line[:100]!r} and logs {entries}, the member {answer[:200]!r} and {logged}")
    return log


def compare_shown(composed, log):
    """Each reply that was shown is logged for its call and its op."""
    for caller, position, op, answer, where in composed.shown:
        moment, act = op.split(" ", 1)
        entry = act + answer.removeprefix("reply")
        wanted = entry if moment == "0" else f"@{moment} {entry}"
        if answer.startswith("reply ") and log.get((caller, position)) != wanted:
            raise Bad(f"{where}: the log has {log.get((caller, position), 'nothing')[:200]!r}")


def compare_clients(calls, log):
    """Each answer that a client heard stands in the log, as often as clients heard it."""
    logged = collections.Counter()
    for text in log.values():
        logged[heard(text.split(" ", 1)[1] if text.startswith("@") else text)] += 1
    told = collections.Counter((kind, key, value if kind in ("set", "incr") else None, str(answer)) for _, kind, key, value, _, end, answer in calls
                               if end is not None and not str(answer).startswith("SERVER_ERROR"))
    for each, count in told.items():
        if logged[each] < count:
            raise Bad(f"clients heard {each} {count} times, and the log has it {logged[each]} times")


def heard(text):
    """An entry of the log as a client records it: kind, key, number and answer."""
    kind, key, *rest = text.split(" ")
    if kind == "get":
        return kind, key, None, "None" if rest == ["miss"] else shown_of(key, rest)
    if kind == "set":
        return kind, key, number_of(key, rest), rest[-1].upper()
    if kind == "incr":
        return kind, key, int(rest[0]), rest[2] if rest[1] == "number" else rest[1].upper()
    return kind, key, None, rest[-1].upper()


def shown_of(key, rest):
    return str(number_of(key, [rest[1], rest[3]]))


def number_of(key, rest):
    """The version of a key that one client sets is its flags; else the value is a number."""
    flags, value = rest[0], rest[1]
    return int(flags) if key.startswith("o") else int(bytes.fromhex(value))
