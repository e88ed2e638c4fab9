# More clients than a server has descriptors for: python3 descriptors.py HOST PORT. Called by bench/descriptors.sh. It fails where a client is neither
# served nor told that there are too many, and where a newcomer isn't served once the others are gone.

import socket
import sys
import time

HOST, PORT = sys.argv[1], int(sys.argv[2])
CLIENTS = 100
TOLD = b"SERVER_ERROR too many connections\r\n"


# What a client hears that asks for the version: its first line.
def ask(link):
    try:
        link.sendall(b"version\r\n")
    except OSError:
        pass
    answer = b""
    try:
        while not answer.endswith(b"\r\n"):
            piece = link.recv(4096)
            if not piece:
                break
            answer += piece
    except OSError as error:
        return answer or str(error).encode()
    return answer


def crowd():
    links = [socket.create_connection((HOST, PORT), timeout=5.0) for _ in range(CLIENTS)]
    heard = [ask(link) for link in links]
    served = sum(line.startswith(b"VERSION") for line in heard)
    told = sum(line == TOLD for line in heard)
    print(f"{CLIENTS} clients: {served} served, {told} told, {CLIENTS - served - told} neither", flush=True)
    for link in links:
        link.close()
    return served + told == CLIENTS and 0 < served < CLIENTS


good = all([crowd() for _ in range(3)])
time.sleep(0.5)
with socket.create_connection((HOST, PORT), timeout=5.0) as one:
    line = ask(one)
print(f"a newcomer, all others gone: {line!r}")
sys.exit(0 if good and line.startswith(b"VERSION") else 1)
