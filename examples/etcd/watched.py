"""Six members with a keeper each and two watchers, of which two members are killed: watched.py PROGRAM SETTINGS.

etcd is there already, where ETCDCTL_ENDPOINTS says. It sets 300 values, kills the program of a data process, and then that of a parity process
with its keeper, as a machine does that ends. Nobody is told: it shows how long after each kill a client was answered that needs the dead one,
reads every value back at each member that lives, and ends all. The status is 0 only where each value was right."""
import os
import random
import re
import signal
import subprocess
import sys
import tempfile
import time

HERE = os.path.dirname(os.path.abspath(__file__))
sys.path.insert(0, os.path.join(HERE, "..", "machines"))
from members import KEYS, Client, Wrong, check, put, reach, settings_of  # noqa: E402


class Watched:
    """A group of members, keepers and watchers, each a program whose standard error goes to a file."""

    def __init__(self, program, settings, folder):
        self.program, self.settings, self.folder = program, settings, folder
        self.members, self.programs = settings_of(settings), {}
        self.rng, self.values = random.Random(7), {}
        self.k = int(re.search(r"^k *= *(\d+)", open(settings).read(), re.M).group(1))

    def start(self, name, words, stdin="/dev/null"):
        said = open(f"{self.folder}/{name}", "wb")
        self.programs[name] = subprocess.Popen(words, stdin=open(stdin, "rb"), stdout=said, stderr=said, start_new_session=True)

    def start_member(self, name):
        self.start(name, [self.program, "member", name], self.settings)

    def start_keeper(self, name):
        self.start(f"keeper {name}", ["sh", f"{HERE}/keeper.sh", self.settings, name])

    def start_watcher(self, name):
        self.start(name, ["sh", f"{HERE}/watch.sh", self.settings])

    def start_all(self):
        for name, _, _ in self.members:
            self.start_member(name)
            self.start_keeper(name)
        for name in ("watcher 1", "watcher 2"):
            self.start_watcher(name)
        self.await_all()

    def await_all(self):
        for name, client, _ in self.members:
            reach(client)
            self.await_word(f"keeper {name}", f"{name} is alive in etcd")
        print(f"{len(self.members)} members serve, and are alive in etcd", flush=True)

    def await_word(self, name, text, seconds=30):
        """Waits until a program has said this."""
        until = time.time() + seconds
        while text not in self.said(name):
            if time.time() > until:
                raise Wrong(f"{name} hasn't said: {text}")
            time.sleep(0.05)

    def said(self, name):
        return open(f"{self.folder}/{name}").read()

    def kill(self, *names):
        for name in names:
            os.killpg(self.programs[name].pid, signal.SIGKILL)
        for name in names:
            self.programs[name].wait()

    def living(self):
        return [each for each in self.members if self.programs[each[0]].poll() is None]

    def key_of(self, partition):
        return next(key for key in self.values if fnv1a(key) % self.k == partition)

    def time_kill(self, what, needs, *names):
        """Kills programs, and tells when a client was answered that needs the first of them: a get of its partition, or a set where it's of parity."""
        index = [name for name, _, _ in self.members].index(names[0])
        at = Client(next(client for name, client, _ in self.living() if name not in names))
        key = self.key_of(index if needs == "get" else 0)
        at.stream.settimeout(60)
        killed = time.time()
        self.kill(*names)
        right = at.get(key) == self.values[key] if needs == "get" else at.set(key, self.values[key])
        if not right:
            raise Wrong(f"a {needs} of {key.decode()} behind the kill was not right")
        taken = time.time() - killed
        print(f"{what}: killed {' and '.join(names)}, a {needs} that needs {names[0]} was answered {taken:.2f} s later", flush=True)
        return taken

    def end(self):
        """Ends watchers, then keepers, and then each member that lives by its own name."""
        for name in [each for each in self.programs if each.startswith(("watcher", "keeper"))]:
            if self.programs[name].poll() is None:
                self.kill(name)
        for name, _, control in self.living():
            if Client(control).say(f"dead {name}") != "ended" or self.programs[name].wait(timeout=5) != 0:
                raise Wrong(f"{name} did not end by its own name")

    def stop(self):
        for each in self.programs.values():
            if each.poll() is None:
                os.killpg(each.pid, signal.SIGKILL)
                each.wait()


def fnv1a(key):
    found = 2166136261
    for byte in key:
        found = (found ^ byte) * 16777619 % 2**32
    return found


def play(group):
    group.start_all()
    put(group.members, group.values, KEYS, group.rng)
    check(group.members, group.values, "six live")
    time.sleep(11)  # A watcher believes nothing before etcd has answered it for ten seconds.
    group.time_kill("a program ends", "get", "d1")
    group.time_kill("a machine ends", "set", "p0", "keeper p0")
    check(group.living(), group.values, "two dead")
    put(group.living(), group.values, KEYS, group.rng)
    check(group.living(), group.values, "set anew with two dead")
    group.end()
    for name in ("watcher 1", "watcher 2"):
        print(f"{name} said:\n{group.said(name)}", end="")


def run(course):
    """Plays a course over a group. The status is 0 only where all was right."""
    program, settings = sys.argv[1:3]
    with tempfile.TemporaryDirectory() as folder:
        group = Watched(program, settings, folder)
        try:
            course(group)
            print("all right")
            return 0
        except (Wrong, OSError, subprocess.TimeoutExpired) as wrong:
            print(f"wrong: {wrong}")
            for name in group.programs:
                print(f"{name} said: {group.said(name)}")
            return 1
        finally:
            group.stop()


if __name__ == "__main__":
    sys.exit(run(play))
