"""Whether README.md names every crate in one of its groups, and each uses only crates of groups above its own, and of its own."""
import re

from tree import NAME

README, CRATES = "README.md", "crates.txt"


def groups(text):
    """The names in each row of the table of groups."""
    table = text[text.find("| Group |"):]
    return [NAME.findall(row) for row in re.findall(r"^\|.*\|$", table[:table.find("\n\n")], re.M)[2:]]


def wrong(tree):
    uses = {name: used.split() for name, used in re.findall(r"^(\w+)(?: staticlib)?:(.*)$", tree.text(CRATES), re.M)}
    level = {}
    for number, names in enumerate(groups(tree.text(README))):
        for name in names:
            if name in level or name not in uses:
                yield f"{README}: {name} is no crate, or is named twice"
            level[name] = number
    yield from (f"{README}: the crate {name} is in no group" for name in uses if name not in level)
    for name, used in uses.items():
        yield from (f"{README}: {name} uses {other}, of a group below its own"
                    for other in used if level.get(other, -1) > level.get(name, len(uses)))
