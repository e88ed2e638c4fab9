"""A group of six members on six machines, three that have etcd, and one that has HAProxy."""
import os
import re
import shutil
import subprocess
import sys
import time

import page
from machines import BRIDGE, Machine, bridges, until

HERE = os.path.dirname(os.path.abspath(__file__))
TOP = os.path.join(HERE, "..", "..")
NAMES = ("d0", "d1", "d2", "d3", "p0", "p1")
MEMBERS = {name: f"10.0.0.{number}" for number, name in enumerate(NAMES, 1)}
ETCDS = {name: f"10.0.1.{number}" for number, name in enumerate(("e1", "e2", "e3"), 1)}


class Group:
    def __init__(self, debian, work, program):
        shared = f"{work}/clone"
        os.makedirs(f"{shared}/crates/cocytus_main/out")
        shutil.copy(program, f"{shared}/crates/cocytus_main/out/cocytus_main")
        shutil.copytree(f"{TOP}/examples", f"{shared}/examples")
        places = {**MEMBERS, **ETCDS, "proxy": "10.0.2.1"}
        self.machines = {name: Machine(name, at, debian, f"{work}/machines", shared) for name, at in places.items()}

    def __getitem__(self, name):
        return self.machines[name]

    def begin(self):
        """All machines, etcd and HAProxy."""
        bridges("add")
        for machine in self.machines.values():
            machine.prepare()
            machine.begin()
        for name, machine in self.machines.items():
            until(machine.is_up, 180, f"the machine {name} is up")
        self.begin_etcd()
        with open(f"{TOP}/examples/haproxy/haproxy.cfg", encoding="utf-8") as file:
            text = re.sub(r"127\.0\.0\.1:2120(\d)", lambda it: f"10.0.0.{int(it[1]) + 1}:11211", file.read())
        self["proxy"].write("/etc/haproxy/haproxy.cfg", text)
        self["proxy"].run("haproxy -c -f /etc/haproxy/haproxy.cfg")

    def begin_etcd(self):
        for name, at in ETCDS.items():
            self[name].write("/etc/default/etcd", page.block("ETCD_NAME=e1").replace("ETCD_NAME=e1", f"ETCD_NAME={name}").replace("10.0.1.1", at).replace(f"e1=http://{at}", "e1=http://10.0.1.1") + "\n")
        self.each_etcd("start")

    def each_etcd(self, verb):
        """At all three at once: one alone doesn't come up."""
        for name in ETCDS:
            self[name].run(f"systemctl --no-block {verb} etcd")
        wanted = "inactive" if verb == "stop" else "active"
        for name in ETCDS:
            until(lambda name=name: self[name].run("systemctl is-active etcd || true").strip() == wanted, 60, f"etcd of {name} is {wanted}")

    def settings(self):
        """Those of the example, of a group that is drawn anew."""
        with open(f"{TOP}/examples/machines/machines.toml", encoding="utf-8") as file:
            text = file.read()
        drawn = subprocess.run(["sh", "-c", page.block("od -An")], check=True, capture_output=True, text=True).stdout
        return re.sub(r'group = "\w+"', f'group = "{drawn}"', text)

    def fresh(self, with_scripts=False):
        """A fresh group, by what the page says, over what is left of an earlier one."""
        text = self.settings()
        for name in NAMES:
            self[name].move(BRIDGE)
            self[name].run("systemctl stop 'cocytus-*' 'second' || true; systemctl reset-failed")
        self.since = int(time.time()) + 1
        time.sleep(1)
        for name in NAMES:
            machine = self[name]
            machine.write("/root/member.toml", text)
            machine.run(page.block("install -D -m 755 crates", name))
            machine.run(page.block("install -D -m 755 -t /usr/local/lib/cocytus" if with_scripts else "install -m 644 -t", name))
        for name in NAMES:
            until(lambda name=name: self.status(name).get("serves") == "yes", 60, f"{name} serves")
        for name in () if with_scripts else NAMES:
            until(lambda name=name: f"{name} is alive in etcd" in self.journal(name), 30, f"{name} is alive in etcd")
        self["proxy"].run("systemctl restart haproxy; sleep 2")

    def status(self, name):
        said = self[name].run(page.line("printf 'status\\n' | nc -N 127.0.0.1 11411") + " || true")
        return dict(line.split(" ", 1) for line in said.splitlines() if " " in line)

    def journal(self, name):
        return self[name].run(f"journalctl -b --since @{self.since} --no-pager -o cat -u 'cocytus-*' -u second")

    def is_dead(self, *names):
        """All others go on without these, and nobody else."""
        others = [each for each in NAMES if each not in names]
        return all(self.status(each).get("taken") == (" ".join(names) or "-") for each in others)

    def expect_dead(self, *names, within=20):
        until(lambda: self.is_dead(*names), within, f"dead are {names}, and nobody else")

    def client(self, what, tag):
        """How long the longest of 300 sets or gets through HAProxy took."""
        return self["proxy"].run(f"{sys.executable} {HERE}/client.py {what} {tag}", network_alone=True).strip()

    def leave(self):
        for machine in self.machines.values():
            machine.leave()
        bridges("delete")
