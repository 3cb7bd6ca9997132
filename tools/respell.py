#!/usr/bin/env python3
"""Spells the repository's own definitions and lemmas as Rattle's library does: words in snake case.

usage: tools/respell.py [FOLDER]

Run once, after /opt/rattle/port/port.py. A definition, field, constructor or label that a file of specs/ declares gets plain underscores,
as 'definition-stops' and 'standingOf' become 'definition_stops' and 'standing_of'. A lemma of proofs/ keeps its dashes, which join names,
and the names within it are turned, as 'crcOf-append' becomes 'crc_of-append'. Types and modules, Rust's own names, comments, strings and
the names that Rattle makes stay. Code spans of the pages in docs/ follow; the notes in docs/landings tell of what was, and stay.
"""

import glob
import os
import re
import sys

WORD = re.compile(r"""[^\s(){}.;,@"«»]+""")
DECLARED = re.compile(r"""(?m)^ *(?:(?:abbrev|unfoldable|pub) )*([^\s(){}.;,@"«»:]+(?: [^\s(){}.;,@"«»:]+)*) :(?=\s)""")
QUIET = re.compile(r'(?m)"(?:[^"\\\n]|\\.)*"|(?:^|(?<=[\s(){}.;,]))--[^\n]*')
RUST_QUIET = re.compile(r'"(?:[^"\\\n]|\\.)*"|//[^\n]*')
SPAN = re.compile(r"`[^`\n]+`")

# Lemmas that would meet the definition that they are about: they keep the dash that they had.
LEMMAS = {
    "uartboot_record": ["step_in", "plain_step"],
    "rom_record": ["step_in"],
    "tray": ["entry_length"],
}


def snake(name):
    return re.sub(r"(?<=[a-z0-9])[A-Z]", lambda m: "_" + m[0].lower(), name)


def read(path):
    with open(path, encoding="utf-8") as f:
        return f.read()


def write(path, old, new):
    if old != new:
        with open(path, "w", encoding="utf-8") as f:
            f.write(new)


def outside(quiet, text, turn):
    """The text with what lies outside comments and strings turned."""
    out, at = [], 0
    for m in quiet.finditer(text):
        out += [turn(text[at : m.start()]), m[0]]
        at = m.end()
    return "".join(out + [turn(text[at:])])


def files(root, pattern):
    return sorted(glob.glob(os.path.join(root, pattern), recursive=True))


def declared(root):
    """The old and new spelling of each name that a file of specs/ or of lemmas declares."""
    table = {}
    for path in files(root, "crates/*/specs/**/*.antt") + files(root, "crates/*/proofs/**/*.antt"):
        if path.endswith("/Proof.antt"):
            continue
        code = QUIET.sub("", read(path))
        for m in DECLARED.finditer(code):
            for name in m[1].split():
                if not re.match(r"[a-z]", name):
                    continue
                new = snake(name)
                if "/specs/" in path:
                    new = new.replace("-", "_")
                    table[name] = new
                else:
                    table.setdefault(name, new)
    return {old: new for old, new in table.items() if old != new}


def keep_lemmas(root):
    for crate, names in LEMMAS.items():
        for path in files(root, f"crates/{crate}/proofs/**/*.antt"):
            text = read(path)
            new = text
            for name in names:
                word = re.compile(r"(?<![^\s(){};,@«»])" + name + r"(?![^\s(){}.;,@«»])")
                new = outside(QUIET, new, lambda part: word.sub(name.replace("_", "-"), part))
            write(path, text, new)


def main(root):
    table = declared(root)
    keep_lemmas(root)
    turn = lambda part: WORD.sub(lambda m: table.get(m[0], m[0]), part)
    for path in files(root, "crates/**/*.antt"):
        text = read(path)
        write(path, text, outside(QUIET, text, turn))
    for path in files(root, "crates/*/src/**/*.rt"):
        text = read(path)
        write(path, text, outside(RUST_QUIET, text, turn))
    for path in files(root, "docs/*.md"):
        text = read(path)
        write(path, text, SPAN.sub(lambda m: turn(m[0][:-1].replace("`", "` ")).replace("` ", "`") + "`", text))
    print(f"respell: {len(table)} names")


main(sys.argv[1] if len(sys.argv) > 1 else ".")
