"""Clients of a group over a proxy: each sets and gets keys of its own over one connection, and connects anew where that breaks."""
import sys
import threading
import time

sys.path.insert(0, __file__.rsplit("/", 3)[0] + "/examples/machines")
from members import Client, Wrong  # noqa: E402


class Load:
    """So many clients at an address. What each key may show: the last value that was acknowledged, and those that were sent behind it."""

    def __init__(self, address, clients):
        self.address, self.over, self.done, self.wrong = address, False, 0, []
        self.breaks, self.pauses, self.refusals = [], [], []
        self.may = [{} for _ in range(clients)]
        self.threads = [threading.Thread(target=self.run, args=(n,), daemon=True) for n in range(clients)]

    def start(self):
        for thread in self.threads:
            thread.start()

    def stop(self):
        self.over = True
        for thread in self.threads:
            thread.join(timeout=60)
            if thread.is_alive():
                self.wrong.append("a client still waits")

    def run(self, n):
        at, turn, last = None, 0, time.time()
        while not self.over:
            try:
                at = at or Client(self.address)
                self.turn(at, n, turn)
                turn, self.done, now = turn + 1, self.done + 1, time.time()
                self.pauses.append((now - last, now, n))
                last = now
            except (OSError, Wrong) as fault:
                at = None
                (self.refusals if str(fault).startswith("SERVER_ERROR") else self.breaks).append((time.time(), str(fault)))
                time.sleep(0.02)

    def turn(self, at, n, turn):
        """A set or a get."""
        key, may = b"load-%d-%d" % (n, turn % 40), self.may[n]
        if turn % 4 == 0:
            value = b"%d" % turn
            may.setdefault(key, [None]).append(value)
            at.ask(b"set %s 0 0 %d\r\n%s\r\n" % (key, len(value), value))
            line = at.line()
            if line != b"STORED":
                raise Wrong(line.decode())
            may[key] = [value]
        else:
            found = at.get(key)
            if found not in may.get(key, [None]):
                self.wrong.append(f"{key.decode()} shows {found}, not one of {may.get(key)}")

    def tell(self, since):
        """What clients saw from a moment on."""
        breaks = [at - since for at, _ in self.breaks if at >= since]
        kinds = sorted({text for at, text in self.breaks + self.refusals if at >= since})
        longest = max((pause for pause, at, _ in self.pauses if at >= since), default=0)
        waited = len({n for pause, at, n in self.pauses if at >= since and pause > 0.5})
        last = f", the last {max(breaks):.2f} s behind it" if breaks else ""
        return (f"{len(breaks)} connections broke{last}; {waited} of {len(self.threads)} clients waited for more than 0.5 s, the longest {longest:.2f} s; "
                f"faults: {kinds or 'none'}")
