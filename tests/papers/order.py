"""Whether docs/DESIGN.md's order of reading has every file of definitions once, each after those that it uses."""
import re

from tree import links

DESIGN, HEADING = "docs/DESIGN.md", "## In which order to read `specs/`\n"
USE = re.compile(r"^use Rattle\.(?!std\.)(\w+)\.specs\.(?!declared)(\w+)", re.M)


def order(text):
    part = text[text.find(HEADING) + len(HEADING):]
    return [path for _, path, _ in links(DESIGN, part[:part.find("\n## ")])]


def wrong(tree):
    listed = order(tree.text(DESIGN))
    there = [path for path in tree.glob("crates/*/specs/*.antt") if not path.endswith("/Lib.antt")]
    yield from (f"{DESIGN}: the order of reading has {path} {listed.count(path)} times" for path in there if listed.count(path) != 1)
    read = set()
    for path in listed:
        read.add(path)
        for crate, name in USE.findall(tree.text(path)):
            used = f"crates/{crate}/specs/{name}.antt"
            if used not in read:
                yield f"{DESIGN}: {path} uses {used}, which comes after it"
