"""An etcd of a trial's own, and what it says of who is dead."""
import os
import re
import signal
import socket
import subprocess
import sys
import time

sys.path.insert(0, os.path.join(os.path.dirname(os.path.abspath(__file__)), "..", "..", "examples", "etcd"))
from watched import Wrong  # noqa: E402

CLIENT, PEER = "http://127.0.0.1:21500", "http://127.0.0.1:21501"


class Etcd:
    """An etcd of its own."""

    def __init__(self, folder):
        self.folder, self.server = folder, None

    def start(self):
        self.server = subprocess.Popen(
            ["etcd", "--data-dir", f"{self.folder}/etcd", "--log-level", "error", "--listen-client-urls", CLIENT, "--advertise-client-urls", CLIENT,
             "--listen-peer-urls", PEER, "--initial-advertise-peer-urls", PEER, "--initial-cluster", f"default={PEER}"],
            stderr=subprocess.DEVNULL)
        while subprocess.run(["etcdctl", "endpoint", "health"], capture_output=True).returncode:
            time.sleep(0.1)

    def kill(self):
        self.server.kill()
        self.server.wait()

    def pause(self, seconds):
        self.server.send_signal(signal.SIGSTOP)
        time.sleep(seconds)
        self.server.send_signal(signal.SIGCONT)


def dead(group):
    """Who is dead, as etcd says."""
    root = re.search(r'^group *= *"(\w+)"', open(group.settings).read(), re.M).group(1)
    said = subprocess.run(["etcdctl", "get", f"/cocytus/{root}/dead", "--print-value-only"], capture_output=True, text=True)
    return sorted(said.stdout.split())


def expect_dead(group, names, within=0):
    """These and no others are dead, so many seconds from now at the latest; the living have cut just them."""
    until = time.time() + within
    while dead(group) != names and time.time() < until:
        time.sleep(0.1)
    if dead(group) != names:
        raise Wrong(f"dead are {dead(group)}, not {names}")
    for name, _, control in group.living():
        if name in names:
            continue
        while (cut := cut_at(control)) != names:
            if time.time() > until + 3:
                raise Wrong(f"{name} has cut {cut}, not {names}")
            time.sleep(0.1)


def cut_at(control):
    host, port = control.rsplit(":", 1)
    with socket.create_connection((host, int(port)), timeout=20) as stream:
        stream.sendall(b"status\n")
        lines = stream.makefile("r")
        for line in lines:
            if line.startswith("cut "):
                return [name for name in line.split()[1:] if name != "-"]
    return None
