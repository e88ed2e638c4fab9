#!/usr/bin/env python3
"""Says which names in PROMISES don't stand where a row says they do, and which names and files of the other pages stand nowhere.

The last column of a row names in backticks what carries its promise: crates, types, functions, clauses, definitions, laws. The crates of a row are those that it
names, and those that declare a public type, function or definition that it names. Each word that is quoted has to stand in the sources of one of them, or,
where a row has none, of any crate; the words of a path, as `Connection::due`, in one crate. Of the pages that tell of code each name that is quoted has to stand in
some crate, and of all pages each file that is quoted or linked has to be there. Each that doesn't is printed with its line, and the status is 1.
"""
import re
import sys
from pathlib import Path

TOP = Path(__file__).resolve().parent.parent
WORD = re.compile(r"[A-Za-z_][A-Za-z0-9_'-]*")
NAME = re.compile(r"[A-Za-z_][A-Za-z0-9_'-]*((::|\.)[A-Za-z_][A-Za-z0-9_'-]*)*")
DECLARED = re.compile(r"\bpub (?:fn|struct|enum|trait|type|const) (\w+)|^(?:abbrev |unfoldable )?pub (?:record |data )?([\w'-]+)", re.M)


class Crate:
    """A crate: the words of its sources, and what it declares."""

    def __init__(self, folder):
        files = [path for path in folder.rglob("*") if path.suffix in (".rt", ".antt") or path.name == "stdin"]
        files = [path for path in files if "out" not in path.relative_to(folder).parts]
        texts = [path.read_text() for path in files]
        self.words = {word for text in texts for word in WORD.findall(text)} | {part for path in files for part in path.name.split(".")}
        self.declares = {one or other for text in texts for one, other in DECLARED.findall(text)}

    def has(self, name):
        return all(part in self.words for part in re.split(r"::|\.", name))


def misplaced(cell, crates):
    """The names that a cell quotes and that stand in no crate of its row."""
    names = [text for text in re.findall(r"`([^`]+)`", cell) if NAME.fullmatch(text)]
    parts = [part for name in names for part in name.split("::")]
    here = [crates[part] for part in parts if part in crates]
    here += [crate for crate in crates.values() if not crate.declares.isdisjoint(parts)]
    bare = [re.sub(r"^(\w+)::", lambda it: "" if it.group(1) in crates else it.group(), name) for name in names]
    return [name for name in bare if name not in crates and not any(crate.has(name) for crate in here or crates.values())]


# The pages that tell of code, and those that tell of its use, where names of other programs stand too.
OF_CODE = ["docs/ARCHITECTURE.md", "docs/DECISIONS.md", "docs/LAWS.md", "docs/MACHINES.md"]
OF_USE = ["README.md", "bench/README.md", "docs/LANGUAGE.md", "docs/OPERATING.md", "docs/PROMISES.md"]
OF_TOOLCHAIN = re.compile(r"rattle-kit-\w+|rt")
FILE = re.compile(r"(?:bench|crates|docs|examples|tools)/[\w./-]*\w")


def lost_names(text, known):
    """The names that a text quotes and that stand nowhere, with their lines."""
    for number, line in enumerate(text.split("\n"), 1):
        for name in re.findall(r"`([^`]+)`", line):
            is_known = OF_TOOLCHAIN.fullmatch(name) or not NAME.fullmatch(name) or all(part in known for part in re.split(r"::|\.", name))
            if not is_known:
                yield number, name


def lost_files(page, text):
    """The files that a page quotes or links to and that aren't there, with their lines."""
    for number, line in enumerate(text.split("\n"), 1):
        named = [TOP / name for name in re.findall(r"`([^`]+)`", line) if FILE.fullmatch(name)]
        linked = [(TOP / page).parent / name for name in re.findall(r"\]\(([^)#]+)[^)]*\)", line) if "://" not in name]
        for path in [*named, *linked]:
            if not path.exists() and not any(path.parent.glob(path.name + "*")):
                yield number, path.relative_to(TOP) if path.is_relative_to(TOP) else path


def check_pages(crates):
    """How many names and files of the pages are lost: each is printed."""
    files = [path for folder in ("bench", "docs", "examples", "tools") for path in (TOP / folder).rglob("*")]
    known = {word for crate in crates.values() for word in crate.words} | set(crates)
    known |= {part for path in files for part in (path.name, *path.name.split("."))}
    known |= {word for path in files if path.suffix in (".py", ".sh", ".toml", ".edit") for word in WORD.findall(path.read_text())}
    found = 0
    for page in OF_CODE + OF_USE:
        text = (TOP / page).read_text()
        lost = [*(lost_names(text, known) if page in OF_CODE else []), *lost_files(page, text)]
        for number, name in lost:
            print(f"{page}:{number}: `{name}` stands nowhere")
        found += len(lost)
    return found


def main():
    crates = {path.name: Crate(path) for path in sorted((TOP / "crates").iterdir()) if path.is_dir()}
    found = check_pages(crates)
    for number, line in enumerate((TOP / "docs/PROMISES.md").read_text().split("\n"), 1):
        if not line.startswith("| "):
            continue
        for name in misplaced(line.rsplit(" | ", 1)[-1], crates):
            print(f"docs/PROMISES.md:{number}: `{name}` doesn't stand in the crates of its row")
            found += 1
    return 1 if found else 0


if __name__ == "__main__":
    sys.exit(main())
