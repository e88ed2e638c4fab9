# So many connections as a member serves, and some more: python3 many.py HOST PORT. Called by bench/bounds.sh. It fails where one of the first 10,000
# isn't answered, or one of the others isn't told that there are too many.

import socket
import sys

HOST, PORT = sys.argv[1], int(sys.argv[2])
MOST, MORE = 10_000, 50
TOLD = b"SERVER_ERROR too many connections\r\n"


def ask(link):
    try:
        link.sendall(b"version\r\n")
        return link.recv(4096)
    except OSError as error:
        return str(error).encode()


links = [socket.create_connection((HOST, PORT), timeout=20.0) for _ in range(MOST)]
served = sum(ask(link).startswith(b"VERSION") for link in links)
further = [socket.create_connection((HOST, PORT), timeout=20.0) for _ in range(MORE)]
told = sum(ask(link) == TOLD for link in further)
again = sum(ask(link).startswith(b"VERSION") for link in links)
print(f"{served} of {MOST} served, {told} of {MORE} more told that there are too many, {again} of the first served again")
sys.exit(0 if served == again == MOST and told == MORE else 1)
