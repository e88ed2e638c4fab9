"""Limits of time on a machine that other work has, which may leave a program of these tests no turn for many seconds."""
import asyncio

TICK = 0.1


async def within(seconds, work):
    """What comes of the work, for which there are so many seconds. One counts only as far as this program had its turns in it."""
    task = asyncio.ensure_future(work)
    try:
        for _ in range(round(seconds / TICK)):
            done, _ = await asyncio.wait([task], timeout=TICK)
            if done:
                return task.result()
        raise asyncio.TimeoutError
    finally:
        task.cancel()
