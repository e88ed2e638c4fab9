"""What is done to a group under load. Each plan notes what it does in `run.notes`, by the names of members."""
import asyncio
import signal

from group import Wrong
from links import LINKED
from steps import LATEST_WORD, condemn_at_another, haunt, kill_one, kill_slowly, pause, word_of


async def kill(run):
    """Kills 1 to m members, each at a moment of its own, and says so: of each by itself, of all together, or of each at another member at once."""
    victims, way = run.rng.sample(run.group.members, run.rng.randint(1, run.group.m)), run.rng.randrange(3)
    for each in victims:
        await kill_one(run, each)
        if way == 0:
            await word_of(run, [each])
            await pause(run, run.seconds / 4)
        else:
            await pause(run, 0.1)
    if way == 1:
        await word_of(run, victims)
    elif way == 2:
        await asyncio.gather(*[word_of(run, [each]) for each in victims])


async def kill_in_word(run):
    """Kills a second member in the middle of the word of the first; now and then the one that hears the word."""
    if run.group.m < 2:
        return await kill(run)
    first, second = run.rng.sample(run.group.members, 2)
    await kill_one(run, first)
    await pause(run, LATEST_WORD)
    at = second if run.rng.random() < 0.3 else run.rng.choice([each for each in run.group.answering() if each is not second])
    run.notes.append(f"word at {at.name}")
    word = asyncio.create_task(run.group.condemn([first], at))
    await asyncio.sleep(run.rng.choice([0, 0.001, 0.003, 0.01]) * run.rng.random())
    await kill_one(run, second)
    try:
        await word
    except (Wrong, OSError):
        if at is not second:
            raise
    await word_of(run, [first, second])


async def stop_and_go_on(run):
    """Stops a member with SIGSTOP, says that it is dead, and lets it go on."""
    ghost = run.rng.choice(run.group.members)
    run.notes.append(f"stop {ghost.name}")
    ghost.is_stopped = True
    ghost.signal(signal.SIGSTOP)
    await word_of(run, [ghost])
    if run.rng.random() < 0.7:
        await run.group.taken(ghost)
        await pause(run, 1.0)
        run.notes.append(f"{ghost.name} goes on")
        ghost.signal(signal.SIGCONT)
        ghost.is_stopped = False
        await haunt(run, ghost)
    else:
        run.notes.append(f"{ghost.name} goes on")
        ghost.signal(signal.SIGCONT)
        ghost.is_stopped = False
        await pause(run, 1.0)


async def condemn_living(run):
    """Says that a member is dead that lives, and has its clients."""
    ghost = run.rng.choice(run.group.members)
    await condemn_at_another(run, ghost)
    await haunt(run, ghost)


async def again(run):
    """Kills a member and starts it again under its name, before or behind the word: it ends by itself, and says so."""
    member = run.rng.choice(run.group.members)
    await kill_one(run, member)
    is_early = run.rng.random() < 0.5
    if not is_early:
        await word_of(run, [member])
    run.notes.append(f"{member.name} again")
    started, errors = run.group.start(member, suffix=".again")
    try:
        for _ in range(600):
            if started.poll() is not None:
                break
            await asyncio.sleep(0.05)
        with open(errors, errors="replace") as said:
            text = said.read()
        if started.poll() != 14 or "no member" not in text:
            run.faults.append(f"{member.name} was started again, and after 30 s its status is {started.poll()}; it says: {text.strip()!r}")
    finally:
        started.kill()
        started.wait()
    if is_early:
        await word_of(run, [member])


async def slow(run):
    """Stops a member for 50 ms, again and again; now and then another one is killed meanwhile."""
    member = run.rng.choice(run.group.members)
    run.notes.append(f"slow {member.name}")
    others = [each for each in run.group.members if each is not member]
    killing = asyncio.create_task(kill_slowly(run, run.rng.choice(others))) if run.rng.random() < 0.5 else None
    for _ in range(int(run.seconds / 0.12)):
        member.signal(signal.SIGSTOP)
        await asyncio.sleep(0.05)
        member.signal(signal.SIGCONT)
        await pause(run, 0.14)
    if killing is not None:
        await killing


async def absent(run):
    """A member never came: it was condemned before the load, and others are killed as far as the group can lose them."""
    others = [each for each in run.group.members if not each.may_end]
    for each in run.rng.sample(others, run.group.m - 1):
        await kill_one(run, each)
        await word_of(run, [each])
        await pause(run, run.seconds / 4)


# Those in which clients ask a member that has to let them go.
HAUNTING = ("stop and go on", "condemn a living one", "cut a link")
PLANS = {"kill": kill, "kill in the word": kill_in_word, "stop and go on": stop_and_go_on, "condemn a living one": condemn_living, "start again": again,
         "slow": slow, "leave": kill, "absent": absent, **LINKED}
