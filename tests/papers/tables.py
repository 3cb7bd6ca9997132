"""Whether the tables of numbers and of opcodes in docs/RULES.md are those of the definitions and of the header."""
import re

from rules import RULES, sections
from tree import links

HEADER, OPCODES = "include/undalisho.h", "crates/opcodes/specs/Opcode.antt"
ROW = re.compile(r"\| (\d+) \| (?:`(UND_\w+)`|none) \| .* \| ([0-9A-F]{2}|none|) ?\| \[`(\w+)`\]\(([^)]*)\) \|")
# The header's enums of refusals and of reasons, and its table of reasons.
NUMBERS = re.compile(r"/\* The (?:numbers of refusals|reasons above)\..*?\*/\nenum \{(.*?)\}", re.S)
REASONS = re.compile(r"^ \*     (\d+) +([0-9A-F]{2}|none) ", re.M)


def table(text):
    """The rows below a table's head."""
    return re.findall(r"^\|.*\|$", text, re.M)[2:]


def rows(text):
    """Number, name for C, what is sent, definition and its file, of each row of the table of numbers."""
    for line in table(text):
        row = ROW.fullmatch(line)
        if row:
            yield int(row[1]), row[2], row[3], row[4], [*links(RULES, line)][-1][1]
        else:
            yield None, None, None, line, None


def defined(tree):
    """By file and name, each number of two or three digits that a definition has and the program uses by the same name."""
    used = {name.lower() for path in tree.glob("crates/*/src/**/*.rt") for name in re.findall(r"const (\w+): u32", tree.text(path))}
    return {(path, name): int(value) for path in tree.glob("crates/*/specs/*.antt")
            for name, value in re.findall(r"^(\w+) = (\d{2,3})$", tree.text(path), re.M) if name in used}


def wrong_row(tree, header, sent, row):
    number, for_c, sends, name, path = row
    if number is None:
        yield f"{RULES}: no row of numbers: {name}"
        return
    if not re.search(rf"^{name} = {number}$", tree.text(path), re.M):
        yield f"{RULES}: {number} is not the number of {name}"
    if for_c and not re.search(rf"\b{for_c} = {number}\b", header):
        yield f"{RULES}: {number} is not the number of {for_c}"
    if sends != sent.get(number, ""):
        yield f"{RULES}: {number} does not send what the header says"


def wrong_numbers(tree, text):
    header, found = tree.text(HEADER), [*rows(text)]
    sent = {int(number): sends for number, sends in REASONS.findall(header)}
    for row in found:
        yield from wrong_row(tree, header, sent, row)
    listed = {(path, name) for _, _, _, name, path in found}
    yield from (f"{RULES}: the table has no {name} of {path}" for path, name in defined(tree) if (path, name) not in listed)
    enums = NUMBERS.findall(header)
    if len(enums) != 2:
        yield f"{HEADER}: no enums of refusals and of reasons"
    names = [name for enum in enums for name in re.findall(r"UND_\w+", enum)]
    yield from (f"{RULES}: the table has no {name}" for name in names if name not in {row[1] for row in found})
    order = [row[0] for row in found if row[0]]
    if order != sorted(order):
        yield f"{RULES}: the numbers are not in order"


def wrong_opcodes(tree, text):
    """The rows of opcodes are those of the definitions and of the header, in their order."""
    said = [int(line.split(" | ")[0].strip("| "), 16) for line in table(text)]
    shapes = [int(number, 16) for number in re.findall(r"= shape 0x(\w+) ", tree.text(OPCODES))]
    names = [int(number, 16) for number in re.findall(r"UND_OP_\w+ = 0x(\w+)", tree.text(HEADER))]
    if not said == shapes == names:
        yield f"{RULES}: opcodes {said}, the definitions have {shapes}, the header {names}"


def wrong(tree):
    found = sections(tree.text(RULES))
    yield from wrong_numbers(tree, found["2"])
    yield from wrong_opcodes(tree, found["6.6"])
