# What a crowd costs, and what bad clients do to it: python3 crowd.py PORT PID SECONDS LOAD, the last being bench/load as built. Called by bench/crowd.sh.

import multiprocessing
import os
import select
import socket
import subprocess
import sys
import threading
import time

ADDRESS, PID, SECONDS, LOAD = ("127.0.0.1", int(sys.argv[1])), sys.argv[2], float(sys.argv[3]), sys.argv[4]
CROWD = 990
BURST = 1000


def connect():
    link = socket.create_connection(ADDRESS, 10)
    link.setsockopt(socket.IPPROTO_TCP, socket.TCP_NODELAY, 1)
    return link


def resident():
    with open(f"/proc/{PID}/status", encoding="ascii") as status:
        return next(int(line.split()[1]) for line in status if line.startswith("VmRSS"))


def files():
    return len(os.listdir(f"/proc/{PID}/fd"))


# An answer up to its end.
def ask(link, request, end):
    link.sendall(request)
    answer = b""
    while not answer.endswith(end):
        piece = link.recv(65536)
        if not piece:
            raise OSError(f"closed behind {answer[-50:]!r}")
        answer += piece
    return answer


# How long it takes until so many that connect at once are connected, and what they cost while they idle.
def burst():
    links, before, begun = [], resident(), time.monotonic()
    for _ in range(BURST):
        link = socket.socket()
        link.setblocking(False)
        link.connect_ex(ADDRESS)
        links.append(link)
    waiting = {link.fileno() for link in links}
    poll = select.poll()
    for link in links:
        poll.register(link, select.POLLOUT)
    while waiting:
        for number, _ in poll.poll(10_000):
            waiting.discard(number)
            poll.unregister(number)
    took = time.monotonic() - begun
    for link in links:
        link.setblocking(True)
        ask(link, b"get nothing\r\n", b"END\r\n")
    answered = time.monotonic() - begun
    time.sleep(1)
    print(f"{BURST} connect at once: connected in {took * 1000:.0f} ms, each answered one after another in {answered * 1000:.0f} ms; idle they take {resident() - before} KiB")
    for link in links:
        link.close()
    time.sleep(1)


crowd, quiet = [], {}


def told(name, way, answered, middle, last, longest):
    if name == "quiet":
        quiet[way] = last
    print(f"{name}; {way}: {answered} answered, p50 {middle:.0f} us, p99 {last:.0f}, longest {longest:.0f}; p99 {last / quiet[way]:.1f} of quiet; server {resident()} KiB", flush=True)


# As many connections more ask all at once, each the next request as it is answered, a tenth of them sets; what they are answered is checked.
def measure_at_once(name):
    words = f"127.0.0.1:{ADDRESS[1]} --gets 90 --size 100 --connections {CROWD} --threads 2 --seconds {SECONDS}".split()
    said = subprocess.run([LOAD, *words], capture_output=True, text=True, check=True).stdout.split()
    of = {key: float(value) for key, value in zip(said[::2], said[1::2])}
    told(name, "all at once", int(of["requests"]), of["p50_us"], of["p99_us"], of["max_us"])


# The crowd asks in turn, each the same get, and is answered right.
def measure(name):
    measure_in_turn(name)
    measure_at_once(name)


def measure_in_turn(name):
    times, begun, at = [], time.monotonic(), 0
    while time.monotonic() - begun < SECONDS:
        link, sent = crowd[at % CROWD], time.monotonic()
        answer = ask(link, b"get a\r\n", b"END\r\n")
        times.append(time.monotonic() - sent)
        at += 1
        assert answer == b"VALUE a 0 100\r\n" + b"x" * 100 + b"\r\nEND\r\n", answer
    times.sort()
    told(name, "in turn", len(times), *(times[int(len(times) * part)] * 1e6 for part in (0.5, 0.99)), times[-1] * 1e6)


# Something that goes on in processes of its own while the crowd is measured: it gives its count when it is told to stop.
def beside(name, act, many=1):
    stop, counts = multiprocessing.Event(), multiprocessing.Queue()
    others = [multiprocessing.Process(target=lambda: counts.put(act(stop)), daemon=True) for _ in range(many)]
    for other in others:
        other.start()
    time.sleep(0.2)
    measure(name)
    stop.set()
    print(f"    {sum(counts.get(timeout=60) for _ in others)} {act.__name__.replace('_', ' ')}")
    for other in others:
        other.join(60)


KEYS = b" ".join(b"b%d" % (number % 4) for number in range(8000))


def mebibytes_read(stop):
    count = 0
    with connect() as link:
        link.sendall(b"get " + KEYS + b"\r\n")
        while not stop.is_set():
            piece = link.recv(1 << 20)
            if not piece:
                break
            count += len(piece)
    return count >> 20


def requests_sent(stop):
    count = 0
    with connect() as link:
        link.settimeout(1.0)

        def drain():
            try:
                while link.recv(1 << 20):
                    pass
            except OSError:
                pass

        reader = threading.Thread(target=drain, daemon=True)
        reader.start()
        try:
            while not stop.is_set():
                count += link.send(b"get nothing\r\n" * 5000) // 13
        except OSError:
            pass
        link.shutdown(socket.SHUT_RDWR)
    return count


def connections_made(stop):
    count = 0
    while not stop.is_set():
        try:
            socket.create_connection(ADDRESS, 5).close()
            count += 1
        except OSError:
            pass
    return count


burst()
crowd = [connect() for _ in range(CROWD)]
ask(crowd[0], b"set a 0 0 100\r\n" + b"x" * 100 + b"\r\n", b"STORED\r\n")
measure("quiet")
measure("quiet")
half = [connect() for _ in range(5)]
for link in half:
    link.sendall(b"set h 0 0 1000000\r\n" + b"y" * 1000)
measure("5 hold half a request")
with connect() as big:
    for number in range(4):
        ask(big, b"set b%d 0 0 1048576\r\n" % number + b"z" * 1048576 + b"\r\n", b"STORED\r\n")
slow = [connect() for _ in range(3)]
for link in slow:
    link.sendall(b"get " + KEYS + b"\r\n")
measure("3 read nothing of a get of 8,000 keys of 1 MiB")
beside("1 reads such a get as fast as it can", mebibytes_read)
beside("1 sends requests as fast as it can", requests_sent)
beside("2 connect and close", connections_made, 2)
print(f"    {files()} files open")
for link in half + slow:
    link.close()
time.sleep(1)
measure("all gone")
print(f"    {files()} files open")
