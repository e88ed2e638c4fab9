"""Checks that each wrong body under bench/plants can be put into the crate that it is of: each text that it replaces stands there once, when
the earlier ones of the same edit are replaced. `./check` runs it; whether the prover refuses them, `bench/plants.sh NAME` tries."""
import pathlib
import sys

TOP = pathlib.Path(__file__).resolve().parent.parent


def pairs_of(edit):
    """The files, the texts that are replaced there, and what stands in their place."""
    file = old = None
    for line in edit.read_text(encoding="utf-8").splitlines():
        word, _, text = line.partition(": ")
        if word == "file":
            file = text
        elif word == "old":
            old = text
        elif word in ("new", "new:"):
            yield file, old, text


def fault_of(edit, crate):
    """Why an edit can't be applied, if it can't."""
    texts, count = {}, 0
    for file, old, new in pairs_of(edit):
        path, count = crate / file, count + 1
        if not path.is_file():
            return f"there is no {file}"
        text = texts.get(path) or path.read_text(encoding="utf-8")
        if text.count(old) != 1:
            return f"{file} has {text.count(old)} times {old!r}"
        texts[path] = text.replace(old, new)
    return None if count else "it replaces nothing"


def main():
    edits = sorted((TOP / "bench" / "plants").glob("*/*.edit"))
    faults = [(edit, fault_of(edit, TOP / "crates" / edit.parent.name)) for edit in edits]
    for edit, fault in faults:
        if fault:
            print(f"{edit.relative_to(TOP)}: {fault}")
    return int(any(fault for _, fault in faults))


if __name__ == "__main__":
    sys.exit(main())
