"""What plans are made of. Each step notes what it does in `run.notes`, by the names of members."""
import asyncio

from connection import Connection, Gone, get_of, set_of

LATEST_WORD = 0.5


async def pause(run, most):
    await asyncio.sleep(run.rng.random() * most)


async def word_of(run, members):
    """Says after a while, at one that lives, that members are dead."""
    await pause(run, LATEST_WORD)
    at = run.rng.choice(run.group.answering())
    run.notes.append(f"word at {at.name}")
    await run.group.condemn(members, at)


async def kill_one(run, member):
    run.notes.append(f"kill {member.name}")
    run.group.kill(member)


async def kill_slowly(run, member):
    await pause(run, run.seconds / 2)
    await kill_one(run, member)
    await word_of(run, [member])


async def condemn_at_another(run, ghost):
    """Says at another member that one is dead that lives. Where it was said."""
    at = run.rng.choice([each for each in run.group.answering() if each is not ghost])
    run.notes.append(f"condemn {ghost.name} at {at.name}")
    await run.group.condemn([ghost], at)
    await run.group.taken(ghost)
    return at


async def haunt(run, ghost):
    """Clients ask a condemned member that goes on: it may answer nothing. Those that it has not let go 4 s behind its patience are counted."""
    async def ask(delay):
        await asyncio.sleep(delay)
        try:
            at = await Connection.open(ghost, run.ledger)
        except Gone:
            return
        names = sorted(run.ledger.keys)
        own = run.load.new_key(2000 + ghost.index, int(delay * 10), 0)
        asked, made = run.ledger.begin(-2, "get", run.rng.choice(names)), run.ledger.begin(own.owner, "set", own.name, 1)
        requests = [get_of([asked]), set_of(made, 1, run.ledger.value_of(own.name, 1))]
        try:
            await asyncio.wait_for(at.exchange(requests), run.group.patience + 4)
        except Gone:
            pass
        except asyncio.TimeoutError:
            run.kept += 1
        for call in [call for call in (asked, made) if call.end is not None]:
            run.ledger.fault(call, f"{ghost.name} is condemned, and answers")
        at.leave()
    await asyncio.gather(*[ask(delay) for delay in (0, run.rng.random(), run.group.patience + 1)])
