#!/usr/bin/env python3
"""Writes BELIEVE.md: which definitions a reader has to believe, behind what a client asks for first, behind the headline, behind the laws of
a group over machines, and behind the clauses of run_program and of run_words.

It follows, from each root, the names that a definition of specs/ cites: definitions of its own file, and those that a
`use` line brings, also of definitions in a `module _`. Types that are declared in src/ are counted by the lines of their declaration there. `--check` writes
nothing, and says whether the page is up to date.
"""
import re
import sys
from pathlib import Path
from textwrap import fill

TOP = Path(__file__).resolve().parent.parent
# The parts of the page with their roots; a part lists what the parts before it don't, and None stands for what the clauses of run_program cite.
ROOTS = [
    ("What a client asks for first", [("group_calls", "Log", "IsLegal"), ("group_calls", "Within", "AnswersWithin")]),
    ("What `verify` says of a transcript, beside these", [("run_verify", "Checked", "IsChecked")]),
    ("The headline, beside these", [("law_headline", "Laws", "HeadlineAlways")]),
    ("A group over machines, beside these", [("group_wire", "Composition", "RunsCompose"), ("group_wire", "Shown", "ShownIsLogged")]),
    ("What `run_program` says, beside these", None),
    ("What `run_words` says, beside these", [("group_program", "Run", "HasExited"), ("group_program", "Arguments", "words_behind"), ("group_program", "Arguments", "lacks_memory")]),
    ("What a client is written at a port, beside these", [("ready_client", "Coming", "Comes"), ("ready_client", "Asking", "Asks")]),
    ("What a member shows its clients, beside these", [("member_runs", "Laws", "MembersShowLogged"), ("member_gateway", "Laws", "EndsAreLogged")]),
    ("What a connection at a member is written, beside these", [("law_clients", "Laws", "WrittenInOrder")]),
]
HEAD = re.compile(r"^(?:abbrev |unfoldable )?pub (?:record |data )?(\S+)|^(?:abbrev|unfoldable|record|data) (\S+)")
WORD = re.compile(r"[A-Za-z_◌][\w◌'≟-]*")


class Module:
    """A file of specs/: its definitions in order, and where the names that it imports come from."""

    def __init__(self, crate, name, path):
        self.crate, self.name, self.path = crate, name, path
        self.definitions, self.imports, self.aliases, self.around = {}, {}, {}, {}
        current, comment, around = None, [], ""
        for line in path.read_text().split("\n"):
            if line.startswith("use Rattle."):
                self.read_use(line)
                continue
            if line.startswith("module _ "):
                current, comment, around = None, [], line
                continue
            if around and line.startswith("  "):
                line = line[2:]
            elif line.strip():
                around = ""
            found = HEAD.match(line)
            if found:
                current = found[1] or found[2]
                self.around[current] = around
                self.definitions.setdefault(current, []).extend([*comment, line])
                comment = []
            elif line.startswith("--"):
                current, comment = None, [*comment, line]
            elif line.strip() and current is None:
                named = line.split(" ")[0]
                if named in self.definitions:
                    current = named
                    self.definitions[current].append(line)
                else:
                    comment = []
            elif line.strip():
                self.definitions[current].append(line)
            else:
                current, comment = None, []

    def read_use(self, line):
        found = re.match(r"use Rattle\.(\w+)\.specs\.([\w.]+?)(?:\.\{(.*)\}| as (\S+))?$", line)
        if not found:
            return
        crate, place, names, alias = found.groups()
        if alias:
            self.aliases[alias] = (crate, place)
        for name in (names or "").split(","):
            if name.strip():
                self.imports[name.strip()] = (crate, place)

    def cited(self, name):
        """The places and names that a definition cites, as (crate, module, name)."""
        lines = [*self.definitions[name], self.around.get(name, "")]
        text = "\n".join(line for line in lines if not line.startswith("--"))
        for operator in {it for it in [*self.imports, *self.definitions] if "◌" in it and it != name}:
            # a `do` block binds by >>=
            if operator.replace("◌", "") in text or operator == "◌>>=◌" and "←" in text:
                yield *self.imports.get(operator, (self.crate, self.name)), operator
        for word in set(WORD.findall(text)):
            if word in self.imports:
                yield *self.imports[word], word
            elif word in self.definitions and word != name:
                yield self.crate, self.name, word
        for alias, word in set(re.findall(r"(\w+)\.(\w+)", text)):
            if alias in self.aliases:
                yield *self.aliases[alias], word


def crates():
    lines = [line.split("#")[0].strip() for line in (TOP / "crates.txt").read_text().split("\n")]
    return [line.split(":")[0].split()[0] for line in lines if line]


def modules():
    found = {}
    for crate in crates():
        for path in sorted((TOP / "crates" / crate / "specs").glob("**/*.antt")):
            name = ".".join(path.relative_to(TOP / "crates" / crate / "specs").with_suffix("").parts)
            if path.name != "Lib.antt":
                found[crate, name] = Module(crate, name, path)
    return found


def declaration(crate, place):
    """The file and the lines of a type that is declared in src/, with its doc comments."""
    parts = [part for part in place.split(".") if part not in ("declared", "TheVariants", "TheConstants")]
    name = parts[-1]
    for path in sorted((TOP / "crates" / crate / "src").glob("**/*.rt")):
        lines = path.read_text().split("\n")
        for at, line in enumerate(lines):
            if re.match(rf"pub (?:struct|enum) {name}\b", line):
                end = next((i for i in range(at, len(lines)) if lines[i].startswith("}") or lines[i].endswith(";")), at)
                begin = at
                while begin and lines[begin - 1].startswith(("///", "#[")):
                    begin -= 1
                return path, name, end - begin + 1
    return None


def roots_of_program(all_modules):
    """What the clauses of run_program cite."""
    text = (TOP / "crates/group_program/src/program.rt").read_text()
    for crate, place, names in re.findall(r"ghost use Rattle\.(\w+)\.specs\.([\w.]+?)\.\{(.*)\};", text):
        for name in names.split(","):
            if (crate, place) in all_modules and name.strip() in all_modules[crate, place].definitions:
                yield crate, place, name.strip()


def closure(all_modules, roots, known):
    order, seen, types = [], set(known), {}

    def visit(crate, place, name):
        if "declared" in place:
            found = declaration(crate, place)
            if found and (crate, found[1]) not in known:
                types[crate, found[1]] = found
            return
        key = (crate, place, name)
        if key in seen or (crate, place) not in all_modules or name not in all_modules[crate, place].definitions:
            return
        seen.add(key)
        for other in sorted(all_modules[crate, place].cited(name)):
            visit(*other)
        order.append(key)

    for root in roots:
        visit(*root)
    return order, types


def told(names):
    """As many of the names as a line has room for."""
    some = next((at for at in range(len(names), 0, -1) if len(", ".join(names[:at])) <= 90), 1)
    return ", ".join(names[:some]) + (f" and {len(names) - some} more" if some < len(names) else "")


def page(all_modules):
    rank = {crate: at for at, crate in enumerate(crates())}
    out = [
        "# What has to be believed",
        "",
        "A proof says no more than its statement. These are the definitions that the statements stand on, file by file in the order of the",
        "crates; a file's other definitions are behind other contracts. Words of the standard library are left out. This page is written by",
        "`docs/believe.py`, and `docs/believe.py --check` says whether it is up to date. Where a row ends in a number, the file has the rest.",
        "",
        "Whoever wants to know of the answers alone may stop behind the first part: a log is legal where each entry has the reply of",
        "memcached's table in its order, and answers are within where each call stands in it once and in its time. In words the headline, and",
        "what is promised of threads, connections and the program, is in [PROMISES.md](PROMISES.md).",
    ]
    known = set()
    for title, named in ROOTS:
        roots = named or sorted(roots_of_program(all_modules))
        order, types = closure(all_modules, roots, known)
        rows, lines, count = {}, 0, 0
        for crate, place, name in order:
            long = len(all_modules[crate, place].definitions[name])
            row = rows.setdefault((rank[crate], str(all_modules[crate, place].path.relative_to(TOP))), [0, []])
            row[0], lines, count = row[0] + long, lines + long, count + 1
            row[1].append(name)
        for (crate, name), (path, _, long) in types.items():
            row = rows.setdefault((rank[crate], str(path.relative_to(TOP))), [0, []])
            row[0], lines, count = row[0] + long, lines + long, count + 1
            row[1].append(name)
        known |= set(order) | set(types)
        begun = ", ".join(f"`{name}`" for _, _, name in roots)
        told_of = f"From {begun}: {count} definitions and types, {lines} lines with their comments."
        out += ["", f"## {title}", "", fill(told_of, 140), "", "| file | lines | of it |", "|---|---|---|"]
        for (_, path), (long, names_there) in sorted(rows.items()):
            out.append(f"| `{path.removeprefix('crates/')}` | {long} | {told(names_there)} |")
    return "\n".join(out) + "\n"


def main():
    text, path = page(modules()), TOP / "docs/BELIEVE.md"
    if "--check" in sys.argv:
        sys.exit(0 if path.exists() and path.read_text() == text else "docs/BELIEVE.md is out of date: run docs/believe.py")
    path.write_text(text)


main()
