"""The tables of phases in undalisho.h: for each kind and phase a line with the words that it uses, of a host with the commands that
have it before them."""
import re
from pathlib import Path

PHASES = r"(\d+(?:, \d+)*)"
ROW = rf" \*     {PHASES} +(.*?)(?:  +(.*))?"

# What a table says of a word besides, where it tells nothing that a record shows.
REMARKS = r" \((?:of the payload|of the answer|the address)\)"


def rows(text, head):
    """The rows below a table's head: phases, what the session does, words."""
    found = []
    for line in text[text.index(head):].split("\n")[1:]:
        row = re.fullmatch(ROW, line)
        if row:
            found.append((row[1].split(", "), row[2], re.sub(REMARKS, "", row[3] or "")))
        elif found:
            break
    return found


def lines_of(receiver, uartboot, host):
    table = [("P", row) for row in receiver if "(E only)" not in row[1]]
    table += [("E", row) for row in receiver] + [("uartboot", row) for row in uartboot]
    table += [("host", (phases, does, re.sub("  +", "; ", words))) for phases, does, words in host]
    return [f"{kind} {phase}: {words}" for kind, (phases, _, words) in table for phase in phases]


def header_lines(root):
    text = Path(root, "include/undalisho.h").read_text()
    return lines_of(*(rows(text, f" *     phase{name}") for name in ("  the receiver", "    uartboot", "   the host")))
