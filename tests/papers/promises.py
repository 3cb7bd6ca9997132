"""Whether docs/PROMISES.md lists every public function once, with definitions that its contract names."""
import re
from collections import Counter

from tree import METHOD, TRAIT, links

PROMISES = "docs/PROMISES.md"
# The parts whose routines ask nothing of their callers.
OUTSIDE = ("For C", "For callers in Rattle")
LAWS = "Laws"
FUNCTION = re.compile(r"^ *pub (?:extern \"C\" )?fn (\w+)", re.M)
OF_TRAIT = re.compile(r"^    fn (\w+)", re.M)


def contract(text, start):
    """A function from its name up to its body, or to the end where it has none."""
    lines = text[start:].split("\n")
    for end, line in enumerate(lines):
        if line.strip() == "{" or line.endswith(";") or line.endswith("{") and not re.search(r"requires|ensures", line):
            return "\n".join(lines[:end + 1])
    return text[start:]


def functions(tree):
    """By file and name, the contract of every public function, and of those of public traits."""
    found = {}
    for path in tree.glob("crates/*/src/**/*.rt"):
        text = tree.text(path)
        blocks = [(block.start(), block.end(), f"{block[1]}::") for block in METHOD.finditer(text)]
        for function in FUNCTION.finditer(text):
            of = "".join(kind for begin, end, kind in blocks if begin < function.start() < end)
            found[path, of + function[1]] = contract(text, function.start())
        for block in TRAIT.finditer(text):
            for function in OF_TRAIT.finditer(text, block.start(2), block.end(2)):
                found[path, f"{block[1]}::{function[1]}"] = contract(text, function.start())
    return found


def rows(text):
    """Each row of a table below a heading: the heading, the row's cells."""
    for part in re.split(r"^## ", text, flags=re.M)[1:]:
        heading, _, body = part.partition("\n")
        for line in re.findall(r"^\| (.*) \|$", body, re.M):
            if "](" in line:
                yield heading, line.split(" | ")


def linked(cell):
    """The file and the name of each name that a cell links."""
    return [(path, name) for names, path, _ in links(PROMISES, cell) for name in names]


def listed(tree):
    """Each routine of a row: its file and name, its heading, the definition beside it. As many definitions as routines belong to them
    one by one; else the first is that of all."""
    for heading, cells in rows(tree.text(PROMISES)):
        if heading != LAWS:
            routines, beside = linked(cells[0]), [name for _, name in linked(" ".join(cells[2:]))]
            for place, routine in enumerate(routines):
                yield routine, heading, beside[place if len(beside) == len(routines) else 0] if beside else None


def clauses(said):
    """A contract without the function's name and parameters, which may be called as a definition is."""
    found = re.search(r"\b(?:requires|ensures)\b", said)
    return said[found.start():] if found else ""


def says(text, name):
    return re.search(rf"(?<![\w-]){re.escape(name)}(?![\w-])", text) is not None


def wrong_row(routine, said, heading, beside):
    path, name = routine
    if heading in OUTSIDE and says(said, "requires"):
        yield f"{PROMISES}: {name} of {path} asks something of its caller"
    if heading in OUTSIDE and not beside:
        yield f"{PROMISES}: no definition beside {name} of {path}"
    if beside and not says(clauses(said), beside):
        yield f"{PROMISES}: the contract of {name} of {path} does not name {beside}"


def law_of(tree, path, name):
    """What a theorem states: its lines up to its proof."""
    found = re.search(rf"^ *pub {re.escape(name)} :.*(?:\n(?! *{re.escape(name)}\b).+)*", tree.text(path), re.M)
    return found[0] if found else ""


def wrong_laws(tree):
    """Each theorem's type names the law beside it; a theorem whose type is a law's name alone is listed."""
    proved = set()
    for heading, cells in rows(tree.text(PROMISES)):
        if heading == LAWS:
            laws, theorems = [name for _, name in linked(cells[1])], linked(cells[2])
            proved |= set(theorems)
            yield from (f"{PROMISES}: {name} of {path} states none of {', '.join(laws)}"
                        for path, name in theorems if not any(says(law_of(tree, path, name), law) for law in laws))
    for path in tree.glob("crates/*/proofs/*.antt"):
        for name in re.findall(r"^pub (\S+) : [A-Z]\w*$", tree.text(path), re.M):
            if (path, name) not in proved:
                yield f"{PROMISES}: the law {name} of {path} is not listed"


def wrong(tree):
    there, entries = functions(tree), [*listed(tree)]
    times = Counter(routine for routine, _, _ in entries)
    for (path, name), count in sorted({**dict.fromkeys(there, 0), **times}.items()):
        if count != 1 or (path, name) not in there:
            yield f"{PROMISES}: pub fn {name} of {path} is listed {count} times" if (path, name) in there else \
                f"{PROMISES}: {path} has no pub fn {name}"
    for routine, heading, beside in entries:
        yield from wrong_row(routine, there.get(routine, ""), heading, beside)
    yield from wrong_laws(tree)
