"""A client of the group behind HAProxy: client.py set TAG | get TAG. It sets 300 values, or reads them back, and writes how long the longest took."""
import socket
import sys
import time

COUNT = 300


def value_of(tag, number):
    return f"{tag}-{number}-".encode() * 20


def line_of(stream):
    line = stream.readline()
    if not line:
        raise ConnectionError("the connection ended")
    return line


def do_set(tag, number, connection, stream):
    value = value_of(tag, number)
    connection.sendall(f"set k{number} 0 0 {len(value)}\r\n".encode() + value + b"\r\n")
    assert line_of(stream) == b"STORED\r\n"


def do_get(tag, number, connection, stream):
    value = value_of(tag, number)
    connection.sendall(f"get k{number}\r\n".encode())
    assert line_of(stream) == f"VALUE k{number} 0 {len(value)}\r\n".encode(), f"k{number} is not there"
    assert stream.read(len(value) + 2) == value + b"\r\n", f"k{number} is wrong"
    assert line_of(stream) == b"END\r\n"


def main():
    what, tag = {"set": do_set, "get": do_get}[sys.argv[1]], sys.argv[2]
    longest, number, connection, stream = 0.0, 0, None, None
    while number < COUNT:
        began = time.monotonic()
        while True:
            try:
                if connection is None:
                    connection = socket.create_connection(("127.0.0.1", 21100), timeout=60)
                    stream = connection.makefile("rb")
                what(tag, number, connection, stream)
                break
            except (ConnectionError, TimeoutError):
                connection = None
                assert time.monotonic() - began < 60, "no answer for a minute"
                time.sleep(0.05)
        longest, number = max(longest, time.monotonic() - began), number + 1
    print(f"{longest:.2f}")


if __name__ == "__main__":
    main()
