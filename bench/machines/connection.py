"""A connection of a client to a member, over memcached's text protocol: requests go out together, and their answers come in order."""
import asyncio


class Gone(Exception):
    """The connection ended."""


class Request:
    """The text of a request, and its calls: one for each key of a get, else one."""

    def __init__(self, text, calls):
        self.text, self.calls = text, calls

    def is_get(self):
        return self.calls[0].kind == "get"


def get_of(calls):
    return Request(b"get %s\r\n" % " ".join(call.key for call in calls).encode(), calls)


def set_of(call, version, value):
    return Request(b"set %s %d 0 %d\r\n%s\r\n" % (call.key.encode(), version, len(value), value), [call])


def incr_of(call):
    return Request(b"incr %s %d\r\n" % (call.key.encode(), call.value), [call])


def delete_of(call):
    return Request(b"delete %s\r\n" % call.key.encode(), [call])


class Connection:
    """`ledger` hears each answer."""

    def __init__(self, member, reader, writer, ledger):
        self.member, self.reader, self.writer, self.ledger = member, reader, writer, ledger

    @classmethod
    async def open(cls, member, ledger):
        try:
            reader, writer = await asyncio.open_connection(member.host, member.client)
        except OSError as error:
            raise Gone from error
        return cls(member, reader, writer, ledger)

    def send(self, requests):
        self.writer.write(b"".join(each.text for each in requests))

    def send_text(self, text):
        self.writer.write(text)

    def leave(self):
        """Goes away at once, whatever is on its way."""
        self.writer.transport.abort()

    async def line(self):
        try:
            line = await self.reader.readline()
        except (OSError, ValueError) as error:
            raise Gone from error
        if not line.endswith(b"\r\n"):
            raise Gone
        text = line[:-2].decode(errors="replace")
        if text == "SERVER_ERROR too few members answer":
            # A member tells a client that comes so, and lets it go.
            raise Gone
        return text

    async def exchange(self, requests):
        """Sends requests, and hears all answers."""
        self.send(requests)
        await self.hear(requests)

    async def hear(self, requests):
        for each in requests:
            if each.is_get():
                await self.hear_get(each)
            else:
                self.hear_line(each.calls[0], await self.line())

    def hear_line(self, call, line):
        is_number = call.kind == "incr" and line.isdigit()
        self.ledger.end(call, int(line) if is_number else line)

    async def hear_get(self, request):
        found = {}
        while True:
            line = await self.line()
            if not line.startswith("VALUE "):
                break
            _, key, flags, size = line.split(" ")
            try:
                value = await self.reader.readexactly(int(size) + 2)
            except (OSError, asyncio.IncompleteReadError) as error:
                raise Gone from error
            found[key] = (int(flags), value[:-2])
        for call in request.calls:
            self.hear_item(call, found.pop(call.key, None), line)
        for key in found:
            self.ledger.fault(request.calls[0], f"shows {key}, which was not asked")

    def hear_item(self, call, item, line):
        """The item that a get shows, and the line behind all of them."""
        if item is None:
            self.ledger.end(call, None if line == "END" else line)
            return
        flags, value = item
        if call.key in self.ledger.keys:
            self.ledger.end(call, flags)
            if value != self.ledger.value_of(call.key, flags):
                self.ledger.fault(call, "other bytes than were set")
        elif value.isdigit():
            self.ledger.end(call, int(value))
        else:
            self.ledger.end(call, repr(value[:40]))
            self.ledger.fault(call, "other bytes than were set")
