"""Keepers and watchers of examples/etcd under what etcd and they may suffer: trials.py PROGRAM SETTINGS [TRIAL..].

Each trial starts an etcd and a group anew. It is right where those are condemned who should be, nobody else is, and every value is read back."""
import os
import signal
import subprocess
import sys
import tempfile
import time

HERE = os.path.dirname(os.path.abspath(__file__))
sys.path[:0] = [HERE, os.path.join(HERE, "..", "..", "examples", "etcd")]
from server import CLIENT, Etcd, dead, expect_dead  # noqa: E402
from watched import KEYS, Watched, Wrong, check, put  # noqa: E402

# After so many seconds a watcher believes that a lease is gone.
SETTLED = 11


def begin(group):
    group.start_all()
    put(group.members, group.values, KEYS, group.rng)
    time.sleep(SETTLED)


def end(group):
    check(group.living(), group.values, "read back")
    group.end()


def kills(group, etcd):
    """A program ends, and then a machine."""
    begin(group)
    group.time_kill("a program ends", "get", "d1")
    expect_dead(group, ["d1"])
    group.time_kill("a machine ends", "get", "d2", "keeper d2")
    expect_dead(group, ["d1", "d2"])


def at_once(group, etcd):
    """Two machines end at once."""
    begin(group)
    group.time_kill("two machines end", "get", "d0", "keeper d0", "d3", "keeper d3")
    expect_dead(group, ["d0", "d3"])


def one_too_many(group, etcd):
    """Three programs end, of which two at most may be condemned."""
    begin(group)
    group.kill("d1", "d2", "p1")
    time.sleep(5)
    if len(dead(group)) > 2:
        raise Wrong(f"dead are {dead(group)}")
    print(f"dead are {dead(group)}")
    group.values = {}


def etcd_anew(group, etcd):
    """etcd is killed and started again, behind 1 s and behind 10."""
    begin(group)
    for seconds in (1, 10):
        etcd.kill()
        time.sleep(seconds)
        etcd.start()
        time.sleep(15)
        expect_dead(group, [])
    group.time_kill("behind etcd's new start", "get", "d1")
    expect_dead(group, ["d1"])


def etcd_away(group, etcd):
    """etcd hangs for a minute, in which a program ends."""
    begin(group)
    etcd.pause(30)
    time.sleep(15)
    expect_dead(group, [])
    etcd.server.send_signal(signal.SIGSTOP)
    time.sleep(20)
    group.kill("d1")
    time.sleep(40)
    etcd.server.send_signal(signal.SIGCONT)
    back = time.time()
    expect_dead(group, ["d1"], 30)
    print(f"a program that ended while etcd hung for a minute was condemned {time.time() - back:.1f} s after etcd was back", flush=True)


def pauses(group, etcd):
    """etcd hangs for about as long as a lease lasts, again and again."""
    begin(group)
    for tenths in range(15, 46, 5):
        etcd.pause(tenths / 10)
        time.sleep(SETTLED + 2)
        expect_dead(group, [])
    print("etcd hung for 1.5 to 4.5 s, seven times: nobody was condemned", flush=True)


def early(group, etcd):
    """Watchers start before members, which come one by one."""
    for name in ("watcher 1", "watcher 2"):
        group.start_watcher(name)
    time.sleep(SETTLED)
    for name, _, _ in group.members:
        group.start_keeper(name)
    for name, _, _ in group.members:
        time.sleep(2)
        group.start_member(name)
    group.await_all()
    put(group.members, group.values, KEYS, group.rng)
    expect_dead(group, [])
    group.time_kill("watchers that were there before members", "get", "d1")
    expect_dead(group, ["d1"])


def keepers(group, etcd):
    """Keepers are started again, a watcher too; and then a keeper alone is killed for good, by which its member is dead, and told so."""
    begin(group)
    for name, _, _ in group.members:
        group.kill(f"keeper {name}")
        group.start_keeper(name)
    time.sleep(5)
    expect_dead(group, [])
    group.kill("watcher 1", "watcher 2")
    group.kill("d1")
    time.sleep(1)
    group.start_watcher("watcher 2")
    began = time.time()
    expect_dead(group, ["d1"], 20)
    print(f"a watcher that was started behind the kill condemned {time.time() - began:.1f} s later", flush=True)
    os.kill(group.programs["keeper p0"].pid, signal.SIGKILL)
    expect_dead(group, ["d1", "p0"], 10)
    if group.programs["p0"].wait(timeout=5) != 0:
        raise Wrong("p0 did not end")


TRIALS = [kills, at_once, one_too_many, etcd_anew, etcd_away, pauses, early, keepers]


def run(trial, program, settings):
    """Plays a trial. Says whether it was right."""
    with tempfile.TemporaryDirectory() as folder:
        etcd, group = Etcd(folder), Watched(program, settings, folder)
        try:
            print(f"{trial.__name__}: {trial.__doc__}", flush=True)
            etcd.start()
            trial(group, etcd)
            if group.values:
                end(group)
            print(f"{trial.__name__}: right", flush=True)
            return True
        except (Wrong, OSError, subprocess.TimeoutExpired) as wrong:
            print(f"{trial.__name__}: wrong: {wrong}")
            for name in group.programs:
                print(f"{name} said: {group.said(name)}")
            return False
        finally:
            group.stop()
            if etcd.server:
                etcd.kill()


def main():
    program, settings, *names = sys.argv[1:]
    os.environ["ETCDCTL_ENDPOINTS"] = CLIENT
    chosen = [each for each in TRIALS if not names or each.__name__ in names]
    wrong = [each.__name__ for each in chosen if not run(each, program, settings)]
    print(f"{len(chosen) - len(wrong)} of {len(chosen)} trials were right")
    return 1 if wrong else 0


if __name__ == "__main__":
    sys.exit(main())
