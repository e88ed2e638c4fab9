#!/usr/bin/env python3
"""Says which names of definitions stand in several crates: words.py [--all].

A definition of specs/ is to have one home, and no other crate a definition of that name. `words.txt` beside this file has the names that stand in
several crates all the same, with these crates. Without a word it says which others do, and which of these no longer do, and its status is 1 where there is
one; `--all` prints all that there are, as `words.txt` has them.
"""
import re
import sys
from pathlib import Path

TOP = Path(__file__).resolve().parent.parent
KNOWN = Path(__file__).resolve().parent / "words.txt"
# A definition begins a line, or stands within a `module _`.
NAMED = re.compile(r"^(?:  )?(?:(?:abbrev|unfoldable|opaque) )?pub (?:record |data )?([^\s:(){},]+)", re.M)


def homes():
    """The crates of each name, by the names."""
    found = {}
    for path in sorted((TOP / "crates").glob("*/specs/**/*.antt")):
        if path.name == "Lib.antt":
            continue
        crate = path.relative_to(TOP / "crates").parts[0]
        for name in NAMED.findall(re.sub(r"--.*", "", path.read_text())):
            if name not in ("mod", "use", "syntax", "field"):
                found.setdefault(name, set()).add(crate)
    return found


def fields(text):
    """The fields of records, whose names need no home of their own."""
    return set(re.findall(r"^\s+pub ([^\s:]+) :", text, re.M))


def main():
    is_field = set()
    for path in (TOP / "crates").glob("*/specs/**/*.antt"):
        is_field |= fields(path.read_text())
    several = {name: crates for name, crates in homes().items() if len(crates) > 1 and name not in is_field}
    lines = [f"{name} {' '.join(sorted(crates))}" for name, crates in sorted(several.items())]
    if sys.argv[1:] == ["--all"]:
        print("\n".join(lines))
        return 0
    known = set(KNOWN.read_text().split("\n")) - {""}
    new, gone = sorted(set(lines) - known), sorted(known - set(lines))
    for line in new:
        print(f"{line.replace(' ', ': ', 1)}: a definition of this name stands in each of these crates: give one another name, or the definition one home")
    for line in gone:
        print(f"tools/words.txt: {line}: it is no longer so")
    return 1 if new or gone else 0


if __name__ == "__main__":
    sys.exit(main())
