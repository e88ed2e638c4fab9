"""A group behind HAProxy, of which members are killed under load: trials.py PROGRAM SETTINGS CONFIG. The status is 0 only where no answer was wrong
and clients went on behind each trial."""
import os
import re
import signal
import subprocess
import sys
import tempfile
import time

HERE = os.path.dirname(os.path.abspath(__file__))
sys.path[:0] = [HERE, os.path.join(HERE, "..", "..", "examples", "machines")]
from load import Load  # noqa: E402
from members import Client, reach, settings_of  # noqa: E402

CLIENTS = 24


class Group:
    def __init__(self, program, settings, folder):
        self.members, self.programs = settings_of(settings), {}
        for name, _, _ in self.members:
            said = open(f"{folder}/{name}", "wb")
            self.programs[name] = subprocess.Popen([program, "member", name], stdin=open(settings, "rb"), stdout=said, stderr=said)
        for _, client, _ in self.members:
            reach(client)

    def say_dead(self, name):
        control = next(control for at, _, control in self.members if at != name and self.programs[at].poll() is None)
        return Client(control).say(f"dead {name}")

    def stop(self):
        for each in self.programs.values():
            each.kill()
            each.wait()


def kill(group):
    """A data process is killed, and said to be dead a second later"""
    group.programs["d1"].kill()
    time.sleep(1)
    group.say_dead("d1")


def hang(group):
    """A data process hangs, and is said to be dead five seconds later"""
    group.programs["d2"].send_signal(signal.SIGSTOP)
    time.sleep(5)
    group.say_dead("d2")


def condemn(group):
    """A parity process that lives is said to be dead"""
    group.say_dead("p0")


def play(group, load, trial):
    began = time.time()
    trial(group)
    time.sleep(8)
    done = load.done
    time.sleep(1)
    print(f"{trial.__doc__}: {load.tell(began)}; {load.done - done} requests in a second behind it", flush=True)
    return load.done > done


def run(program, settings, config, trials, folder):
    """Whether all was right."""
    group = Group(program, settings, folder)
    proxy = subprocess.Popen(["haproxy", "-f", config], stderr=open(f"{folder}/haproxy", "wb"))
    try:
        address = re.search(r"bind (\S+)", open(config).read()).group(1)
        reach(address)
        load = Load(address, CLIENTS)
        time.sleep(3)
        load.start()
        time.sleep(3)
        right = all([play(group, load, trial) for trial in trials])
        load.stop()
        print(f"{load.done} requests, wrong answers: {load.wrong or 'none'}")
        return right and not load.wrong
    finally:
        proxy.kill()
        proxy.wait()
        group.stop()


def main():
    program, settings, config = sys.argv[1:]
    right = True
    for trials in ([kill, condemn], [hang]):
        with tempfile.TemporaryDirectory() as folder:
            right = run(program, settings, config, trials, folder) and right
    return 0 if right else 1


if __name__ == "__main__":
    sys.exit(main())
