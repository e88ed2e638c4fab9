"""A relay of TCP connections to a port of this machine. It can delay what passes, each direction by a time and at a speed of its own, hold it up, and be cut."""
import asyncio
import time

PIECE, UNDER_WAY = 65_536, 64


class Way:
    """One direction: how many seconds all is late, and how many bytes pass in one."""

    def __init__(self, delay=0.0, speed=float("inf")):
        self.delay, self.speed = delay, speed


class Relay:
    """From who connects to who listens it is `forth`, and the other direction is `back`."""

    def __init__(self, host, forth=None, back=None):
        self.host, self.target, self.server = host, None, None
        self.forth, self.back = forth or Way(), back or Way()
        self.writers, self.flows = [], asyncio.Event()
        self.flows.set()

    async def open(self, target):
        """Listens for who wants to come to a port, and tells where."""
        self.target = target
        self.server = await asyncio.start_server(self.join, self.host, 0)
        return self.server.sockets[0].getsockname()[1]

    async def join(self, reader, writer):
        """Passes on what comes at one side, in both directions."""
        try:
            back, forth = await asyncio.open_connection(self.host, self.target)
            self.writers += [writer, forth]
            await asyncio.gather(*self.passing(reader, forth, self.forth), *self.passing(back, writer, self.back))
        except OSError:
            writer.close()
        except asyncio.CancelledError:
            pass  # The run is over: asyncio would tell it as a fault.

    def passing(self, reader, writer, way):
        pieces = asyncio.Queue(UNDER_WAY)
        return self.take(reader, pieces, way), self.give(writer, pieces)

    async def take(self, reader, pieces, way):
        """Reads pieces and notes when each may pass: a piece begins where the one before it ended."""
        free = 0.0
        try:
            while piece := await reader.read(PIECE):
                free = max(free, time.monotonic()) + len(piece) / way.speed
                await pieces.put((free + way.delay, piece))
        except OSError:
            pass
        await pieces.put((free + way.delay, b""))

    async def give(self, writer, pieces):
        """Writes each piece at its time, and closes behind the last. What can't be written any more is dropped."""
        while True:
            due, piece = await pieces.get()
            await asyncio.sleep(due - time.monotonic())
            await self.flows.wait()
            if not piece:
                return writer.close()
            if not writer.is_closing():
                writer.write(piece)
                try:
                    await writer.drain()
                except OSError:
                    pass

    def stall(self):
        """Nothing passes from now on, and nothing is closed."""
        self.flows.clear()

    def go_on(self):
        self.flows.set()

    def cut(self, is_last):
        """Ends what is connected, with what is on its way; where it is the last, nobody can connect any more."""
        for each in self.writers:
            each.transport.abort()
        self.writers = []
        self.flows.set()
        if is_last:
            self.server.close()
