"""How fast items are carried: carry_speed.py PROGRAM FOLDER ITEMS BYTES. A group of 4 2 is filled with so many items of so many bytes, and `carry` carries them into a fresh
one on the same machine. It writes how many items and bytes a second that came to, and what `carry` said; the status is 0 only where all were carried."""
import asyncio
import os
import subprocess
import sys
import time

from group import Group

BATCH = 200


async def fill(group, items, size):
    """Sets the items, over connections to every member."""
    streams = [await asyncio.open_connection(each.host, each.client) for each in group.members for _ in range(8)]
    value = b"v" * size

    async def part(number):
        reader, writer = streams[number]
        mine = range(number, items, len(streams))
        for begin in range(0, len(mine), BATCH):
            keys = mine[begin:begin + BATCH]
            writer.write(b"".join(b"set key-%08d 0 0 %d\r\n%s\r\n" % (key, size, value) for key in keys))
            for _ in keys:
                line = await reader.readline()
                assert line == b"STORED\r\n", line
        writer.close()

    await asyncio.gather(*(part(number) for number in range(len(streams))))


async def play(program, folder, items, size):
    groups = []
    try:
        for name in ("old", "new"):
            inside = os.path.join(folder, name)
            os.makedirs(inside, exist_ok=True)
            groups.append(Group(program, inside, 4, 2, 4096, 16_384))
            if name == "new":
                plain = groups[1].settings
                groups[1].settings = lambda links: f"base = {[items * 2] * 4}\n" + plain(links)
            await groups[-1].start_all()
        await fill(groups[0], items, size)
        lines = ["k = 4"]
        for name, group in zip(("from", "to"), groups):
            for each in group.members:
                lines += [f"[[{name}]]", f'name = "{each.name}"', f'link = "{group.host}:{each.link}"', f'client = "{group.host}:{each.client}"',
                          f'control = "{group.host}:{each.control}"']
        begun = time.monotonic()
        ended = await asyncio.to_thread(subprocess.run, [program, "carry"], input="\n".join(lines).encode() + b"\n", capture_output=True)
        taken = time.monotonic() - begun
        print(ended.stderr.decode().splitlines()[-1])
        print(f"{items} items of {size} bytes in {taken:.1f} s: {items / taken:,.0f} items and {items * size / taken / 1e6:.1f} MB a second")
        return ended.returncode
    finally:
        for group in groups:
            group.end()


if __name__ == "__main__":
    sys.exit(asyncio.run(play(sys.argv[1], sys.argv[2], int(sys.argv[3]), int(sys.argv[4]))))
