#!/usr/bin/env python3
"""Runs the commands of README and OPERATING that end by themselves, at the top of the repository, and looks at what they write.

They are listed here in their order, each with its page, where it is an indented line, and with what its output must hold. Home is an empty folder while they run; a
group serves, with `control`, behind those of README. One whose program isn't on this machine is passed over, which is told. The status is 1 where one of them ends
otherwise or doesn't stand in its page, and where README has one more that begins with `sh`.
"""
import contextlib
import os
import re
import shutil
import subprocess
import sys
import tempfile
from pathlib import Path

TOP = Path(__file__).resolve().parent.parent
RUN = r"\ntwo dead: 300 values are right at each of 4 members\n.*\nset anew with two dead: 300 values are right at each of 4 members\n.*\nall right, after [0-9.]+ s\n"
README = [
    ("README.md", "sh examples/machines/unproved.sh ~/cocytus", ""),
    ("README.md", "sh examples/machines/run.sh ~/cocytus/cocytus_main", RUN),
]
OPERATING = [
    ("docs/OPERATING.md", r"printf 'set a 0 0 1\r\nx\r\nget a\r\nquit\r\n' | nc 127.0.0.1 11211", r"^STORED\r\nVALUE a 0 1\r\nx\r\nEND\r\n$"),
    ("docs/OPERATING.md", r"printf 'cocytus_fail d0 0\r\nget a\r\nquit\r\n' | nc 127.0.0.1 11211", r"^OK\r\nVALUE a 0 1\r\nx\r\nEND\r\n$"),
    ("docs/OPERATING.md", "nutcracker -t -c examples/nutcracker.yml", "syntax is ok"),
    ("docs/OPERATING.md", r"od -An -N16 -tx1 /dev/urandom | tr -d ' \n'", "^[0-9a-f]{32}$"),
    ("docs/OPERATING.md", "cp examples/machines/machines.toml ~/member.toml", "^$"),
    ("docs/OPERATING.md", "haproxy -c -f examples/haproxy/haproxy.cfg", "Configuration file is valid"),
]


def lines_of(page):
    """The indented lines of a page, without what stands behind a command."""
    return [re.sub(r" +# .*", "", line.strip()) for line in (TOP / page).read_text().split("\n") if line.startswith("    ")]


def is_kept(page, command):
    if command in lines_of(page):
        return True
    print(f"{page} hasn't the command {command}")
    return False


def is_listed(line):
    if ("README.md", line) in [(page, command) for page, command, _ in README]:
        return True
    print(f"README.md: docs/commands.py doesn't know {line}")
    return False


@contextlib.contextmanager
def served(home):
    """A group that serves meanwhile, with `control`."""
    settings = (TOP / "examples/group.toml").read_text().replace("control = false", "control = true")
    with subprocess.Popen([f"{home}/cocytus/cocytus_main", "serve"], stdin=subprocess.PIPE, stdout=subprocess.PIPE, text=True) as group:
        group.stdin.write(settings)
        group.stdin.close()
        group.stdout.readline()
        try:
            yield
        finally:
            group.terminate()


def lacking(command):
    """The programs of a command that aren't on this machine."""
    return [part.split()[0] for part in command.split(" | ") if not shutil.which(part.split()[0])]


def runs(home, command, held):
    """Whether the command ends well and writes what it has to."""
    print(f"$ {command}", flush=True)
    if lacking(command):
        print(f"not run: there is no {lacking(command)[0]}")
        return True
    ran = subprocess.run(["sh", "-c", command], cwd=TOP, env={**os.environ, "HOME": home}, stdout=subprocess.PIPE, stderr=subprocess.STDOUT)
    said = ran.stdout.decode(errors="replace")
    print(said, flush=True)
    return ran.returncode == 0 and re.search(held, said, re.S) is not None


def main():
    stand = [is_kept(page, command) for page, command, _ in README + OPERATING]
    stand += [is_listed(line) for line in lines_of("README.md") if line.startswith("sh ")]
    with tempfile.TemporaryDirectory() as home:
        failed = [command for _, command, held in README if not runs(home, command, held)]
        if not failed:
            with served(home):
                failed = [command for _, command, held in OPERATING if not runs(home, command, held)]
    for command in failed:
        print(f"otherwise than its page says: {command}")
    return 0 if all(stand) and not failed else 1


if __name__ == "__main__":
    sys.exit(main())
