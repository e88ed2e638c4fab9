"""The command `watch` under what etcd and it may suffer: commands.py PROGRAM SETTINGS [TRIAL..].

Beside each member one runs that keeps its lease, judges and tells it. The trials are those of the scripts, and some of its own."""
import os
import sys
import time

HERE = os.path.dirname(os.path.abspath(__file__))
sys.path[:0] = [HERE, os.path.join(HERE, "..", "..", "examples", "etcd")]
import trials  # noqa: E402
from server import CLIENT, expect_dead  # noqa: E402
from trials import SETTLED, begin  # noqa: E402
from watched import Watched, Wrong  # noqa: E402


class Commanded(Watched):
    """A group of members, each with a `watch` beside it."""

    def __init__(self, program, settings, folder):
        path = f"{folder}/member.toml"
        with open(path, "w", encoding="utf-8") as file:
            file.write(open(settings, encoding="utf-8").read() + f'\n[watch]\netcd = ["{CLIENT.removeprefix("http://")}"]\n')
        super().__init__(program, path, folder)
        self.watch = os.environ.get("WATCH", program)

    def start_keeper(self, name):
        self.start(f"keeper {name}", [self.watch, "watch", name], self.settings)

    def start_watcher(self, name):
        """Each member's own watches."""

    def kill(self, *names):
        super().kill(*[name for name in names if name in self.programs])


def ends(group, etcd):
    """A member that ends takes what watches it along, with status 0."""
    begin(group)
    group.kill("d1")
    if group.programs["keeper d1"].wait(timeout=5) != 0:
        raise Wrong("what watched d1 didn't end with status 0")
    expect_dead(group, ["d1"], 2)


def two(group, etcd):
    """Two watch each member; then one of each is killed, and a member."""
    begin(group)
    for name, _, _ in group.members:
        group.start(f"second {name}", [group.watch, "watch", name], group.settings)
    time.sleep(SETTLED)
    expect_dead(group, [])
    group.time_kill("two watch each", "get", "d1")
    expect_dead(group, ["d1"], 2)
    for name, _, _ in group.living():
        group.kill(f"second {name}")
    time.sleep(6)
    expect_dead(group, ["d1"])
    group.time_kill("one of two is left", "get", "d2", "keeper d2")
    expect_dead(group, ["d1", "d2"], 2)


def anew(group, etcd):
    """What watches members is killed and started again; then one is killed, by which its member is dead, which the next that watches it tells it."""
    begin(group)
    for name, _, _ in group.members:
        group.kill(f"keeper {name}")
        group.start_keeper(name)
    time.sleep(SETTLED)
    expect_dead(group, [])
    began = time.time()
    group.kill("keeper p0")
    expect_dead(group, ["p0"], 10)
    print(f"a member that nothing watches any more was dead {time.time() - began:.1f} s later", flush=True)
    group.start_keeper("p0")
    if group.programs["p0"].wait(timeout=5) != 0:
        raise Wrong("p0 did not end")


def main():
    own = [ends, two, anew]
    trials.TRIALS = [each for each in trials.TRIALS if each is not trials.keepers] + own
    trials.Watched = Commanded
    return trials.main()


if __name__ == "__main__":
    sys.exit(main())
