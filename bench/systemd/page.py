"""What docs/OPERATING.md has an operator type: its blocks of commands, by their first words."""
import os
import re

PAGE = os.path.join(os.path.dirname(os.path.abspath(__file__)), "..", "..", "docs", "OPERATING.md")


def blocks():
    """Each block of commands, as a list of lines without what is said behind them."""
    found, block = [], []
    with open(PAGE, encoding="utf-8") as page:
        for line in [*page.read().splitlines(), ""]:
            if re.match(r" {4,}\S", line):
                block.append(re.sub(r" {4,}# .*", "", line.strip()))
            elif block:
                found.append(block)
                block = []
    return found


def block(first, name="d0"):
    """The block whose first line begins so, typed at the machine of a member."""
    found = [each for each in blocks() if each[0].startswith(first)]
    if len(found) != 1:
        raise AssertionError(f"{len(found)} blocks of {PAGE} begin with {first!r}")
    return "\n".join(found[0]).replace("@d0", f"@{name}")


def line(text):
    """A line that stands on the page by itself."""
    if [text] not in blocks():
        raise AssertionError(f"{PAGE} has no {text!r}")
    return text
