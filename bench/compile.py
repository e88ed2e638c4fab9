#!/usr/bin/env python3
"""Compiles the benches without a proof, so that none goes stale unseen: compile.py. It takes some minutes, and runs nothing.

All programs of programs.txt are modules of one crate, whose types and borrows `rattle check` looks at over the sources of the crates below; then come the crates that
`history/tell.py` changes, and the test under `machines/serve_tests`. Rattle has no word that ends a check there. What it refuses next is two names that differ in
case alone: each crate gets such a pair here, and compiles where nothing else of it is refused. The status is 1 where one doesn't.
"""
import re
import shutil
import subprocess
import sys
import tempfile
from pathlib import Path

HERE = Path(__file__).resolve().parent
TOP = HERE.parent
PAIR = "\nmod end {\n    struct Last {}\n\n    fn last() {}\n}\n"
REFUSED = "the names `Last` and `last` differ only in the case of their letters"


def listed(path):
    """The crates that each line of a crates.txt names, by its own."""
    lines = [line.split("#")[0].partition(":") for line in path.read_text().split("\n")]
    return {head.split()[0]: rest.split() for head, _, rest in lines if head.strip()}


def below(names, uses):
    """What these stand on, themselves among it, each behind what it uses."""
    found = []
    for name in names:
        found += [it for it in [*below(uses.get(name, []), uses), name] if it not in found]
    return found


def words(name, root, needs, top):
    """The words of a check of a crate, over the sources of the repository's crates below it and the libraries of the kit."""
    kit = Path(subprocess.run(["rt", "doc"], capture_output=True, text=True, check=True).stdout.strip()).parent
    uses = listed(top / "crates.txt")
    every = below(needs, uses)
    told = ["--crate-name", name, str(root), "-L", f"dependency={kit}/rlibs", "--jobs", "1", "--only", ""]
    for it in ("core", "std", *every):
        used = ",".join(["core", "std", *uses.get(it, [])])
        told += ["--lib", f"{it}:{used}={top}/crates/{it}/src/lib.rt"] if it in uses else ["--extern", f"{it}={kit}/rlibs/{it}.rlib"]
    return [*told, "--antt-project", f"{kit}/rattle/logic/antt-project.json", "--logic-built", f"{kit}/logic_built"]


def compiles(name, root, needs, top, *more):
    """Whether nothing of a crate is refused before the pair that is put into it. What is refused is printed."""
    root.write_text(root.read_text() + PAIR)
    checked = subprocess.run(["rattle", "check", *words(name, root, needs, top), *more], stdout=subprocess.PIPE, stderr=subprocess.STDOUT, text=True)
    lines = checked.stdout.replace(f"{root.parent}/", "").split("\n")
    wrong = [line for line in lines if "error" in line and REFUSED not in line]
    if not wrong and REFUSED not in checked.stdout:
        wrong = lines[-5:]
    print("\n".join(f"{name}: {line}" for line in wrong or ["compiles"]), flush=True)
    return not wrong


def sources(name):
    """The files of a program in Rattle, with those of other folders."""
    more = HERE / name / "more"
    others = [TOP / line for line in more.read_text().split()] if more.exists() else []
    return [path for path in [*(HERE / name).iterdir(), *others] if path.suffix == ".rattle"]


def modules(work):
    """One library of all programs: each is a module, whose lines stay where they are."""
    names = [re.sub("_bench$", "", name) for name in listed(HERE / "programs.txt")]
    for name in names:
        for path in sources(name):
            text = path.read_text().replace("#![tactic(auto)]", "").replace("crate::", f"crate::{name}::")
            to = work / "src" / name / ("mod.rt" if path.stem == "main" else f"{path.stem}.rt")
            to.parent.mkdir(parents=True, exist_ok=True)
            to.write_text(re.sub(r"^fn main\(", "#[test] fn main(", text, flags=re.M))
    root = work / "src/lib.rt"
    root.write_text("#![tactic(auto)]\n\n" + "".join(f"mod {name};\n" for name in names))
    return root


def changed(work):
    """A copy of the crates, of which `history/tell.py` has changed some, with the test that waits for its proof."""
    shutil.copytree(TOP / "crates", work / "crates", ignore=shutil.ignore_patterns("out", "must-fail", "data"))
    shutil.copy(TOP / "crates.txt", work)
    subprocess.run([sys.executable, HERE / "history/tell.py", work], check=True)
    tests = work / "crates/serve_tests/src"
    shutil.copy(HERE / "machines/serve_tests/distant.rattle", tests / "distant.rt")
    (tests / "lib.rt").write_text((tests / "lib.rt").read_text() + "\n#[cfg(test)]\nmod distant;\n")
    return work, listed(work / "crates.txt")


def main():
    with tempfile.TemporaryDirectory() as folder:
        programs = [it for each in listed(HERE / "programs.txt").values() for it in each]
        passed = [compiles("benches", modules(Path(folder) / "benches"), programs, TOP, "--test")]
        work, uses = changed(Path(folder) / "changed")
        passed.append(compiles("cocytus_main", work / "crates/cocytus_main/src/main.rt", uses["cocytus_main"], work))
        passed.append(compiles("serve_tests", work / "crates/serve_tests/src/lib.rt", uses["serve_tests"], work, "--test"))
    return 0 if all(passed) else 1


if __name__ == "__main__":
    sys.exit(main())
