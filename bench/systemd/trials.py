"""The trials of bench/systemd.sh: trials.py DEBIAN FOLDER PROGRAM [TRIAL..]. Each has a fresh group, begun as docs/OPERATING.md says."""
import sys
import time

import page
from group import ETCDS, NAMES, Group
from machines import BRIDGE, FAR, until


def say(text):
    print(text, flush=True)


def losses(group):
    """A program ends, then a machine, which is begun again."""
    group.fresh()
    group.client("set", "a")
    group["d1"].run("systemctl kill -s KILL cocytus-member@d1")
    say(f"a program ended: the longest get of 300 took {group.client('get', 'a')} s")
    group.expect_dead("d1")
    metrics = group["d0"].run("curl -s http://127.0.0.1:11411/metrics")
    for line in ("cocytus_losses_left 1", 'cocytus_member_condemned{peer="d1"} 1', 'cocytus_death_taken{peer="d1"} 1', 'cocytus_link_up{peer="d1"} 0'):
        assert f"{line}\n" in metrics, f"/metrics has no {line}"
    health = group["d0"].run(page.line("curl -s http://127.0.0.1:11411/health")).strip()
    assert health == "serves", f"/health says {health!r}"
    group["p0"].end()
    say(f"a machine ended: the longest set of 300 took {group.client('set', 'b')} s")
    group.expect_dead("d1", "p0")
    group.client("get", "b")
    group["p0"].begin()
    until(group["p0"].is_up, 60, "the machine is up again")
    group["p0"].run("systemctl start cocytus-member@p0 || true")
    until(lambda: "status=14" in group["p0"].run("systemctl status cocytus-member@p0 || true"), 10, "its member ends with status 14")


def far(group):
    """p1 and one etcd are alone, and come back."""
    group.fresh()
    group.client("set", "a")
    for name in ("p1", "e3"):
        group[name].move(FAR)
    say(f"p1 and an etcd are far: the longest set of 300 took {group.client('set', 'b')} s")
    until(lambda: group.status("d0").get("taken") == "p1", 20, "p1 is dead")
    for name in ("p1", "e3"):
        group[name].move(BRIDGE)
    until(lambda: "the member has ended" in group.journal("p1"), 30, "p1 ends once it is back")
    group.client("get", "b")
    group.expect_dead("p1")


def halves(group):
    """Three members and an etcd are apart from all others, and come back."""
    group.fresh()
    group.client("set", "a")
    there = ("d3", "p0", "p1", "e2", "e3")
    for name in there:
        group[name].move(FAR)
    time.sleep(15)
    for name in there:
        group[name].move(BRIDGE)
    say(f"in halves for 15 s: the longest get of 300 behind it took {group.client('get', 'a')} s")
    group.expect_dead()
    group.client("set", "b")


def away(group):
    """etcd is away for a minute; then each of it is started anew, one behind another."""
    group.fresh()
    group.each_etcd("stop")
    time.sleep(60)
    group.each_etcd("start")
    time.sleep(12)
    group.expect_dead()
    for name in ETCDS:
        group[name].run("systemctl restart etcd")
        time.sleep(4)
    group.expect_dead()
    say("etcd was away for a minute, and each of it was started anew")


def two(group):
    """Two watch each member; one of one ends, and then a program."""
    group.fresh()
    for name in NAMES:
        group[name].run(f"systemd-run -q --unit=second -p StandardInput=file:/etc/cocytus/member.toml /usr/local/bin/cocytus_main watch {name}")
    for name in NAMES:
        until(lambda name=name: group.journal(name).count(f"{name} is alive in etcd") == 2, 20, f"both say that {name} is alive")
    group["d3"].run("systemctl stop cocytus-watch@d3")
    time.sleep(8)
    group.expect_dead()
    group.client("set", "a")
    group["d2"].run("systemctl kill -s KILL cocytus-member@d2")
    say(f"two watch each: the longest get of 300 took {group.client('get', 'a')} s")
    group.expect_dead("d2")


def scripts(group):
    """The scripts over etcdctl, and a person's word."""
    group.fresh(with_scripts=True)
    time.sleep(12)
    group.client("set", "a")
    group["d1"].run("systemctl kill -s KILL cocytus-member@d1")
    say(f"scripts: the longest get of 300 took {group.client('get', 'a')} s")
    group.expect_dead("d1")
    group["d0"].run(page.block("env $(cat /etc/cocytus/etcd.env)").replace("member.toml d1", "member.toml p0"))
    group.expect_dead("d1", "p0")
    group.client("get", "a")


TRIALS = (losses, far, halves, away, two, scripts)


def main():
    debian, folder, program, *wanted = sys.argv[1:]
    group, wrong = Group(debian, folder, program), 0
    try:
        group.begin()
        for trial in [each for each in TRIALS if not wanted or each.__name__ in wanted]:
            say(f"{trial.__name__}: {trial.__doc__}")
            try:
                trial(group)
            except AssertionError as error:
                say(f"{trial.__name__}: wrong: {error}")
                wrong += 1
    finally:
        group.leave()
    say("all right" if not wrong else f"{wrong} wrong")
    return 1 if wrong else 0


if __name__ == "__main__":
    sys.exit(main())
