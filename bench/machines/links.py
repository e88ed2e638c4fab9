"""Plans for the links between members, which relays make slow, hold up, and cut."""
import asyncio
import itertools

from relay import Relay, Way
from steps import condemn_at_another, haunt, kill_slowly, pause

LONGEST_DELAY, SPEEDS, SILENCE = 0.05, (500_000, 2_000_000, 20_000_000, float("inf")), 0.5
# A run's one process has all relays in it.
MOST_SLOW = 24


async def relays_of(run):
    """Relays for a plan that wants some, open. Their ports by the two members, of which the first is the one that connects."""
    if run.plan not in LINKED:
        return {}
    pairs = list(itertools.combinations(run.group.members, 2))
    if run.plan == "cut a link":
        run.relays = {run.rng.choice(pairs): relay_to(run)}
    else:
        count = len(pairs) if run.rng.random() < 0.5 else run.rng.randint(1, len(pairs))
        run.relays = {pair: relay_to(run, way_of(run), way_of(run)) for pair in run.rng.sample(pairs, min(count, MOST_SLOW))}
        run.notes.append(f"{len(run.relays)} of {len(pairs)} links")
    return {(a.index, b.index): await relay.open(b.link) for (a, b), relay in run.relays.items()}


def relay_to(run, *ways):
    return Relay(run.group.host, *ways)


def way_of(run):
    return Way(run.rng.random() * LONGEST_DELAY, run.rng.choice(SPEEDS))


async def slow_links(run):
    """The links are slow from the start. Now and then one is silent for half a second; in half of the runs a member is killed meanwhile."""
    killing = asyncio.create_task(kill_slowly(run, run.rng.choice(run.group.members))) if run.rng.random() < 0.5 else None
    silences = run.rng.randint(1, 3)
    run.notes.append(f"{silences} silences")
    for _ in range(silences):
        relay = run.rng.choice(list(run.relays.values()))
        relay.stall()
        await asyncio.sleep(SILENCE)
        relay.go_on()
        await pause(run, run.seconds / 4)
    if killing is not None:
        await killing


async def cut(run):
    """Cuts the link between two members, and says that one of them is dead."""
    [(ends, relay)] = run.relays.items()
    way = run.rng.choice(["cut", "cut for ever", "stall and cut"])
    names = " ".join(each.name for each in ends)
    run.notes.append(f"{way} {names}")
    if way == "stall and cut":
        relay.stall()
        await pause(run, 1.0)
    relay.cut(is_last=way == "cut for ever")
    await pause(run, 1.0)
    ghost = run.rng.choice(ends)
    at = await condemn_at_another(run, ghost)
    await haunt(run, ghost)
    for each, other in (ends, ends[::-1]):
        if each is not ghost and each is not at and f"the link to {other.name} broke" not in each.said():
            run.notes.append(f"{each.name} has not said that its link to {other.name} broke")


LINKED = {"cut a link": cut, "slow links": slow_links}
