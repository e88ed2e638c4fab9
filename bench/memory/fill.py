# Fills a server with items of 100 bytes whose keys have 20: python3 fill.py PORT memcached|redis COUNT. Called by bench/memory.sh.

import socket
import sys

PORT, PEER, COUNT = int(sys.argv[1]), sys.argv[2], int(sys.argv[3])
VALUE = b"x" * 100
PIECE = 1000


def request(number):
    key = b"k%019d" % number
    if PEER == "redis":
        return b"*3\r\n$3\r\nSET\r\n$20\r\n%s\r\n$100\r\n%s\r\n" % (key, VALUE)
    return b"set %s 0 0 100\r\n%s\r\n" % (key, VALUE)


link = socket.create_connection(("127.0.0.1", PORT), 10)
for first in range(0, COUNT, PIECE):
    link.sendall(b"".join(map(request, range(first, first + PIECE))))
    lines = 0
    while lines < PIECE:
        lines += link.recv(65536).count(b"\n")
