"""Members of a group as programs on this machine, and what they say at their control addresses."""
import re
import socket
import subprocess
import time
import urllib.error
import urllib.request


class Wrong(Exception):
    pass


def await_that(what, seconds, holds):
    """Waits until it holds, and gives what it gave."""
    latest = time.monotonic() + seconds
    while True:
        found = holds()
        if found:
            return found
        if time.monotonic() > latest:
            raise Wrong(f"not within {seconds} s: {what}")
        time.sleep(0.2)


def page(address, path):
    """The status of a page, and its text: 0 where nobody answers."""
    try:
        with urllib.request.urlopen(f"http://{address}{path}", timeout=10) as answer:
            return answer.status, answer.read().decode()
    except urllib.error.HTTPError as error:
        return error.code, error.read().decode()
    except OSError:
        return 0, ""


def line_of(address, text):
    """The first line that is answered to a text."""
    host, port = address.rsplit(":", 1)
    with socket.create_connection((host, int(port)), timeout=10) as stream:
        stream.sendall(text)
        return stream.makefile("rb").readline().decode().strip()


class Members:
    """The members of some settings, by their names."""

    def __init__(self, program, settings, folder):
        self.program, self.folder, self.programs = program, folder, {}
        self.settings = f"{folder}/member.toml"
        with open(self.settings, "w") as file:
            file.write(settings)
        found = re.findall(r'name = "([^"]+)"\s*link = "[^"]+"\s*client = "([^"]+)"\s*control = "([^"]+)"', settings)
        self.clients = {name: client for name, client, _ in found}
        self.controls = {name: control for name, _, control in found}

    def start(self):
        for name in self.controls:
            said = open(f"{self.folder}/{name}.said", "wb")
            self.programs[name] = subprocess.Popen(
                [self.program, "member", name], stdin=open(self.settings, "rb"), stdout=said, stderr=said)
        await_that("all members serve", 60, lambda: set(self.health().values()) == {200})

    def health(self):
        return {name: page(control, "/health")[0] for name, control in self.controls.items()}

    def say(self, at, *dead):
        answer = line_of(self.controls[at], f"dead {' '.join(dead)}\n".encode())
        if answer != ("ended" if dead == (at,) else "taken"):
            raise Wrong(f"{at} answered {answer} to dead {' '.join(dead)}")

    def kill(self, name):
        self.programs[name].kill()
        self.programs[name].wait()

    def end(self, name):
        self.say(name, name)
        status = self.programs[name].wait(timeout=10)
        if status != 0:
            raise Wrong(f"{name} ended with status {status}")

    def kill_all(self):
        for name in self.programs:
            self.kill(name)
