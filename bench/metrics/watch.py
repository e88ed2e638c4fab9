"""Six members under a Prometheus, one of which is killed: watch.py PROGRAM EXAMPLES. The status is 0 only where all is right."""
import json
import re
import subprocess
import sys
import tempfile
import time
import urllib.parse

from members import Members, Wrong, await_that, line_of, page

PROMETHEUS = "127.0.0.1:23490"
GROUP = "example"


def moved(text):
    """A text of the examples with ports of this script's own."""
    return re.sub(r"127\.0\.0\.1:21([234])", r"127.0.0.1:23\1", text)


def hastened(text):
    """Settings of Prometheus that scrape and judge each second."""
    return text.replace("interval: 5s", "interval: 1s").replace("timeout: 4s", "timeout: 1s")


def start_prometheus(examples, folder):
    with open(f"{examples}/prometheus/prometheus.yml") as file, open(f"{folder}/prometheus.yml", "w") as own:
        own.write(hastened(moved(file.read())))
    with open(f"{examples}/prometheus/alerts.yml") as file, open(f"{folder}/alerts.yml", "w") as own:
        own.write(file.read())
    words = [f"--config.file={folder}/prometheus.yml", f"--storage.tsdb.path={folder}/data", f"--web.listen-address={PROMETHEUS}"]
    return subprocess.Popen(["prometheus", *words], stdout=subprocess.DEVNULL, stderr=open(f"{folder}/prometheus.said", "wb"))


def asked(path):
    """What Prometheus answers by its HTTP API."""
    status, text = page(PROMETHEUS, path)
    if status != 200:
        raise Wrong(f"{path}: {status} {text}")
    return json.loads(text)["data"]


def query(expression):
    return asked("/api/v1/query?" + urllib.parse.urlencode({"query": expression}))["result"]


def alerts():
    """The alerts that are pending or firing: which, of whom, and of which other."""
    found = {}
    for alert in asked("/api/v1/alerts")["alerts"]:
        labels = alert["labels"]
        words = [labels["alertname"].removeprefix("Cocytus"), labels.get("instance"), labels.get("peer")]
        found[" ".join(word for word in words if word)] = alert["state"]
    return found


def check_rules():
    """Each rule was judged without a fault."""
    for rule in (rule for group in asked("/api/v1/rules")["groups"] for rule in group["rules"]):
        if rule["health"] != "ok":
            raise Wrong(f"the rule {rule['name']}: {rule['health']} {rule.get('lastError', '')}")


def await_alerts(what, wanted):
    """Waits until these alerts are there and no others."""
    started, wanted = time.monotonic(), set(wanted)
    try:
        found = await_that(what, 60, lambda: set(found := alerts()) == wanted and (found or {"none": ""}))
    except Wrong as wrong:
        raise Wrong(f"{wrong}: {alerts()} instead of {wanted}") from None
    told = ", ".join(" ".join((name, state)).strip() for name, state in sorted(found.items()))
    print(f"{what}, after {time.monotonic() - started:.1f} s: {told}", flush=True)


def check_pages(members):
    for name, control in members.controls.items():
        status, text = page(control, "/metrics")
        judged = subprocess.run(["promtool", "check", "metrics"], input=text, capture_output=True, text=True)
        if status != 200 or judged.returncode != 0 or judged.stdout or judged.stderr:
            raise Wrong(f"/metrics of {name}: {status}\n{judged.stdout}{judged.stderr}")
    print("promtool finds nothing at fault with six pages", flush=True)


def numbers(members, name):
    """What a member tells at /metrics: a number by its name with its labels."""
    lines = [line for line in page(members.controls[name], "/metrics")[1].splitlines() if not line.startswith("#")]
    return {metric: int(value) for metric, value in (line.rsplit(" ", 1) for line in lines)}


def total(members, names, metric):
    """The sum of what some members tell of all that begins so."""
    return sum(value for name in names for key, value in numbers(members, name).items() if key.startswith(metric))


def check_counts(members):
    """Twenty sets, three deletes and twenty-five gets are counted where they were asked, and their items where they are."""
    for i in range(20):
        line_of(members.clients["d0"], b"set key%d 0 0 9\r\n123456789\r\n" % i)
    for i in range(3):
        line_of(members.clients["d2"], b"delete key%d\r\n" % i)
    for i in range(25):
        line_of(members.clients["p1"], b"get key%d\r\n" % i)
    data = [name for name in members.controls if name.startswith("d")]
    for name, metric, wanted in (
        ("d0", 'cocytus_calls_total{command="set",result="done"}', 20),
        ("d2", 'cocytus_calls_total{command="delete",result="done"}', 3),
        ("p1", 'cocytus_calls_total{command="get",result="done"}', 17),
        ("p1", 'cocytus_calls_total{command="get",result="refused"}', 8),
    ):
        if numbers(members, name)[metric] != wanted:
            raise Wrong(f"{metric} of {name} is {numbers(members, name)[metric]} instead of {wanted}")
    for names in data, ["p0"], ["p1"]:
        await_that(f"17 items at {names}", 5, lambda: total(members, names, "cocytus_items") == 17)
        await_that(f"all applied at {names}", 5, lambda: total(members, names, "cocytus_updates_unfinished") == 0)
    if total(members, data, "cocytus_free_run_longest_bytes") >= 4 * 4096 * 4096 or not total(members, data, "cocytus_link_sent_bytes_total"):
        raise Wrong("no space is taken, or nothing was sent")
    if total(members, members.controls, "cocytus_rebuilds_total"):
        raise Wrong("something was rebuilt before a loss")
    print("calls, items and space are counted right", flush=True)


def check_rebuilds(members, living):
    """Items of a member that is dead are read from blocks that are rebuilt, by the first parity process alone."""
    for i in range(3, 20):
        if line_of(members.clients["d0"], b"get key%d\r\n" % i) != f"VALUE key{i} 0 9":
            raise Wrong(f"key{i} isn't read behind the loss")
    counts = {name: numbers(members, name)["cocytus_rebuilds_total"] for name in living}
    if not counts.pop("p0") or any(counts.values()):
        raise Wrong(f"blocks were rebuilt elsewhere than at p0, or nowhere: {counts}")
    print("rebuilds are counted where they are made", flush=True)


def check_health(members, what, others):
    """All are healthy but these."""
    wanted = {name: others.get(name, 200) for name in members.controls}
    if members.health() != wanted:
        raise Wrong(f"{what}: /health gives {members.health()} instead of {wanted}")
    print(f"{what}: /health is right", flush=True)


def check_dashboard(examples):
    """Each expression is one of Prometheus', and gives something where it doesn't ask for what is wrong."""
    with open(f"{examples}/prometheus/dashboard.json") as file:
        targets = [target["expr"] for each in json.load(file)["panels"] for target in each["targets"]]
    for expression in (target.replace("$group", GROUP) for target in targets):
        await_that(f"the dashboard's {expression}", 30, lambda: query(expression) or "==" in expression)
    print(f"{len(targets)} expressions of the dashboard are right", flush=True)


def run(members, examples):
    await_that("Prometheus answers", 60, lambda: page(PROMETHEUS, "/-/ready")[0] == 200)
    await_that("six members are scraped", 60, lambda: len(query("up == 1")) == 6)
    check_dashboard(examples)
    await_alerts("six live", [])
    members.kill("d1")
    links = [f"LinkDown {name} d1" for name in members.controls if name != "d1"]
    await_alerts("d1 is killed", ["MemberGone d1", *links])
    check_health(members, "d1 is killed", {"d1": 0})
    members.say("p1", "d1")
    await_alerts("d1 was said to be dead", ["MemberLost d1"])
    check_rebuilds(members, [name for name in members.controls if name != "d1"])
    members.say("d0", "p0")
    lost = ["MemberLost d1", "MemberLost p0", "NoLossLeft", "CondemnedRuns p0"]
    await_alerts("p0, which lives, was said to be dead", lost)
    await_that("p0 lets its clients go", 60, lambda: members.health()["p0"] == 503)
    print(f"a client of p0 is told: {line_of(members.clients['p0'], b'get a' + bytes((13, 10)))}", flush=True)
    await_alerts("a client of p0 was refused", [*lost, "ClientsRefused p0"])
    check_health(members, "two are lost", {"d1": 0, "p0": 503})
    check_rules()
    for name in sorted(set(members.controls) - {"d1"}):
        members.end(name)


def main():
    program, examples = sys.argv[1:]
    with open(f"{examples}/machines/member.toml") as file, tempfile.TemporaryDirectory() as folder:
        members, prometheus = Members(program, moved(file.read()), folder), None
        try:
            members.start()
            check_pages(members)
            check_counts(members)
            prometheus = start_prometheus(examples, folder)
            run(members, examples)
            print("all right")
            return 0
        except (Wrong, OSError, subprocess.TimeoutExpired) as wrong:
            print(f"wrong: {wrong}")
            return 1
        finally:
            members.kill_all()
            if prometheus:
                prometheus.terminate()
                prometheus.wait()


sys.exit(main())
