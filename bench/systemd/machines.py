"""Machines with a systemd each: containers of systemd-nspawn over one Debian, on one bridge. A machine can be ended, begun again, and put behind another
bridge, where it reaches only those that are there too."""
import os
import subprocess
import time

BRIDGE, FAR = "cocytus0", "cocytus1"


def call(*words, **how):
    return subprocess.run(words, check=True, capture_output=True, text=True, **how).stdout


class Machine:
    def __init__(self, name, address, debian, folder, shared):
        self.name, self.address, self.debian, self.shared = name, address, debian, shared
        self.folder, self.container = f"{folder}/{name}", None

    def path(self, inside):
        return f"{self.folder}/root{inside}"

    def prepare(self):
        for each in ("up", "work", "root"):
            os.makedirs(f"{self.folder}/{each}")
        layers = f"lowerdir={self.debian},upperdir={self.folder}/up,workdir={self.folder}/work"
        call("mount", "-t", "overlay", "overlay", "-o", layers, self.path(""))
        for each in ("/etc/systemd/network", "/root/clone"):
            os.makedirs(self.path(each), exist_ok=True)
        self.write("/etc/systemd/network/10-host0.network", f"[Match]\nName=host0\n[Network]\nAddress={self.address}/16\nLinkLocalAddressing=no\n")
        self.write("/etc/hostname", f"{self.name}\n")
        self.write("/etc/machine-id", "")
        wanted = self.path("/etc/systemd/system/multi-user.target.wants")
        for each in ("etcd", "haproxy"):
            if os.path.lexists(f"{wanted}/{each}.service"):
                os.remove(f"{wanted}/{each}.service")
        if not os.path.lexists(f"{wanted}/systemd-networkd.service"):
            os.symlink("/lib/systemd/system/systemd-networkd.service", f"{wanted}/systemd-networkd.service")

    def write(self, inside, text):
        os.makedirs(os.path.dirname(self.path(inside)), exist_ok=True)
        with open(self.path(inside), "w", encoding="utf-8") as file:
            file.write(text)

    def begin(self):
        # One that a killed container left.
        subprocess.run(["ip", "link", "delete", f"vb-{self.name}"], check=False, capture_output=True)
        words = ["systemd-nspawn", "-q", "-D", self.path(""), "-M", self.name, "--boot", "--register=no", "--keep-unit"]
        words += [f"--network-bridge={BRIDGE}", f"--bind-ro={self.shared}:/root/clone"]
        quiet = {"stdin": subprocess.DEVNULL, "stdout": subprocess.DEVNULL, "stderr": subprocess.DEVNULL}
        self.container = subprocess.Popen(words, start_new_session=True, **quiet)

    def is_up(self):
        try:
            return self.run("systemctl is-system-running || true").strip() in ("running", "degraded") and self.address in self.run("hostname -I")
        except (subprocess.CalledProcessError, IndexError):
            return False

    def first(self):
        """The first program of the machine."""
        return call("pgrep", "-P", str(self.container.pid)).split()[0]

    def run(self, command, network_alone=False):
        """What a command writes that is typed there."""
        spaces = ["-n"] if network_alone else ["-m", "-u", "-i", "-n", "-p", "-r", "-w"]
        shell = ["sh", "-ec", command if network_alone else f"cd /root/clone\n{command}"]
        return call("nsenter", "-t", self.first(), *spaces, *shell, timeout=120)

    def end(self):
        """As a machine whose power is cut."""
        if self.container is not None and self.container.poll() is None:
            subprocess.run(["kill", "-9", *call("pgrep", "-P", str(self.container.pid)).split()], check=False)
            self.container.wait(timeout=20)

    def move(self, bridge):
        call("ip", "link", "set", f"vb-{self.name}", "master", bridge)

    def leave(self):
        self.end()
        subprocess.run(["umount", "-l", self.path("")], check=False, capture_output=True)


def bridges(name):
    """Makes both bridges, or takes them away."""
    for each in (BRIDGE, FAR):
        if name == "add":
            call("ip", "link", "add", each, "type", "bridge")
            call("ip", "link", "set", each, "up")
        else:
            subprocess.run(["ip", "link", "delete", each], check=False, capture_output=True)


def until(test, seconds, what):
    ends = time.monotonic() + seconds
    while not test():
        if time.monotonic() > ends:
            raise AssertionError(f"not within {seconds} s: {what}")
        time.sleep(0.2)
