# What a client that behaves badly does to others: python3 hostile.py HOST PORT [PID of the server]. Called by bench/hostile.sh.
# While each of the bad ones is there, an innocent on a connection that it had before sets and gets for a second, and reads what it wrote;
# then a newcomer connects and does a get. Bounded in time and bytes.

import socket
import sys
import threading
import time

HOST, PORT = sys.argv[1], int(sys.argv[2])
PID = sys.argv[3] if len(sys.argv) > 3 else None
GARBAGE = 1_000_000_000


def connect(timeout=5.0):
    return socket.create_connection((HOST, PORT), timeout=timeout)


# An answer up to its end, or what came of it.
def ask(link, request, end):
    link.sendall(request)
    answer = b""
    while not answer.endswith(end):
        piece = link.recv(65536)
        if not piece:
            return answer + b" (closed)"
        answer += piece
    return answer


# How many calls the innocent made in so many seconds, the longest, and how many answers were wrong.
def innocent(link, seconds=1.0):
    begun, calls, longest, wrong = time.monotonic(), 0, 0.0, 0
    while time.monotonic() - begun < seconds:
        at = time.monotonic()
        value = b"%020d" % calls
        wrong += ask(link, b"set innocent 0 0 20\r\n" + value + b"\r\n", b"\r\n") != b"STORED\r\n"
        wrong += ask(link, b"get innocent\r\n", b"END\r\n") != b"VALUE innocent 0 20\r\n" + value + b"\r\nEND\r\n"
        longest, calls = max(longest, time.monotonic() - at), calls + 2
    return f"{calls} calls, the longest pair {longest * 1000:.1f} ms, wrong {wrong}"


def newcomer():
    try:
        with connect(2.0) as link:
            begun = time.monotonic()
            answer = ask(link, b"get nothing\r\n", b"END\r\n")
            return f"{answer!r} in {(time.monotonic() - begun) * 1000:.1f} ms"
    except OSError as error:
        return f"no answer ({error})"


# The resident memory of the server in MiB: 0 where it isn't known.
def resident():
    if PID is None:
        return 0
    with open(f"/proc/{PID}/status", encoding="ascii") as status:
        lines = [line.split()[1] for line in status if line.startswith("VmRSS")]
    return int(lines[0]) / 1024 if lines else 0


def memory():
    return f"; server {resident():.0f} MiB" if PID else ""


def told(name, link):
    print(f"{name}: innocent {innocent(link)}; newcomer {newcomer()}{memory()}", flush=True)


# Sends pieces until so many bytes are sent, the other side closes, or the time is over; gives the bytes sent and how it ended.
def pour(link, piece, seconds, most=GARBAGE):
    begun, sent = time.monotonic(), 0
    link.settimeout(1.0)
    try:
        while sent < most and time.monotonic() - begun < seconds:
            sent += link.send(piece)
    except OSError as error:
        return f"{sent} bytes, then {error}"
    return f"{sent} bytes in {time.monotonic() - begun:.1f} s"


def drain(link):
    try:
        while link.recv(1 << 20):
            pass
    except OSError:
        pass


# A bad client that acts in a thread while the innocent works, and what it says of itself at the end.
def beside(name, link, act):
    said = []
    thread = threading.Thread(target=lambda: said.append(act()), daemon=True)
    thread.start()
    time.sleep(0.3)
    told(name, link)
    thread.join(60)
    print(f"    {name}: {said[0] if said else 'still at it'}{memory()}", flush=True)


def half_a_line(link):
    with connect() as bad:
        bad.sendall(b"get half")
        told("half a line", link)


def reads_nothing(link):
    ask(link, b"set large 0 0 1000000\r\n" + b"x" * 1_000_000 + b"\r\n", b"\r\n")
    with connect() as bad:
        beside("reads no answers", link, lambda: pour(bad, b"get large\r\n" * 100, 4.0))


def half_a_block(link):
    for _ in range(20):
        with connect() as bad:
            bad.sendall(b"set innocent 0 0 100000\r\n" + b"y" * 50_000)
    told("closes inside a block (20 times)", link)


def one_line(link):
    with connect() as bad:
        beside("1 GB without a line feed", link, lambda: pour(bad, b"z" * 65536, 10.0))


def many_lines(link):
    with connect() as bad:
        reader = threading.Thread(target=drain, args=(bad,), daemon=True)
        reader.start()
        beside("1 GB of lines that are no command", link, lambda: pour(bad, (b"z" * 999 + b"\n") * 65, 20.0))
        bad.shutdown(socket.SHUT_RDWR)


# As many as a crowd hold half a line each; then they leave.
def many_half_lines(link):
    bad = [connect() for _ in range(1000)]
    for one in bad:
        one.sendall(b"get held")
    time.sleep(0.3)
    told("1,000 hold half a line", link)
    for one in bad:
        one.close()
    time.sleep(0.3)
    told("all gone", link)


# As many as a crowd ask for an item of 1 MiB again and again, and read nothing; then they leave. What each of them costs, and what is given back.
# More than 300 MiB are moved first, by a server that other work on the machine slows, and calls wait for that.
def many_read_nothing(link):
    link.settimeout(120.0)
    ask(link, b"set large 0 0 1048576\r\n" + b"x" * 1_048_576 + b"\r\n", b"\r\n")
    held = resident()
    bad = [connect() for _ in range(300)]
    for one in bad:
        one.sendall(b"get large\r\n" * 20)
    time.sleep(5.0)
    told("300 read nothing", link)
    print(f"    each of them: {(resident() - held) / 300:.2f} MiB", flush=True)
    for one in bad:
        one.close()
    time.sleep(2.0)
    told("all gone", link)
    print(f"    kept of what they had: {resident() - held:.0f} MiB", flush=True)


with connect() as before:
    told("nothing bad", before)
    for trial in [half_a_line, reads_nothing, half_a_block, one_line, many_lines, many_half_lines, many_read_nothing]:
        trial(before)
