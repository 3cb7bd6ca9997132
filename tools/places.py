#!/usr/bin/env python3
"""Lists the places in crates/*/src that read like the older Rattle, by the points of docs/DESIGN-PASS.md.

tools/places.py [FOLDER]          counts for each kind of place
tools/places.py [FOLDER] -v       and each place
"""
import collections
import pathlib
import re
import sys

EMPTY = r"Outside|Missing|Unknown|Unsound|Malformed|Invalid|Nothing|Refused|None"
FUNCTION = re.compile(r"^( *)(?:pub )?(?:extern \"C\" )?fn (\w+)(.*?)^\1\{$(.*?)^\1\}$", re.S | re.M)


def blocks(text, word):
    return re.finditer(r"^(?:pub )?%s (\w+)[^{;]*\{(.*?)^\}" % word, text, re.S | re.M)


def line_of(text, at):
    return text.count("\n", 0, at) + 1


def shaped_enums(text):
    for found in blocks(text, "enum"):
        variants = re.findall(r"^    (\w+)", found[2], re.M)
        if len(variants) <= 4 and any(re.fullmatch(EMPTY, name) for name in variants):
            yield found.start(), "enum " + found[1]
    for found in blocks(text, "enum"):
        if re.search(r"^    Nothing,", found[2], re.M) and len(re.findall(r"^    \w+", found[2], re.M)) > 4:
            yield found.start(), "enum " + found[1]


def flagged_structs(text):
    for found in blocks(text, "struct"):
        if re.search(r"^    (?:pub )?(?:number|rule): u32,|: bool,", found[2], re.M) and found[2].count(":") > 1:
            yield found.start(), "struct " + found[1]


def numbered_results(text):
    for found in FUNCTION.finditer(text):
        if re.search(r"-> u32\b", found[3]) and re.search(r"^    0$", found[4], re.M):
            yield found.start(), "fn " + found[2]


def numbered_kinds(text):
    for found in FUNCTION.finditer(text):
        arms = re.findall(r"=> (?:\d+|[A-Z]\w*(?:::[A-Z_]+)?),$|^ +\d+ => ", found[4], re.M)
        if re.search(r"-> u(8|32|size)\b", found[3]) and len(arms) > 1 and re.search(r"^ +\w+::\w+", found[4], re.M):
            yield found.start(), "fn " + found[2]


def hand_loops(text):
    for found in re.finditer(r"^ *(?:while .*\{|for \w+ in (?:\w+\.\.|0\.\.)\S*.*\{)$", text, re.M):
        yield found.start(), found[0].strip()


def hand_conversions(text):
    named = r"number_of|kind_number|opcode_of|record_of|words_of|low_byte|high_byte|compare|least|called_of|numbers_of|fields_of"
    for found in FUNCTION.finditer(text):
        if re.fullmatch(named, found[2]):
            yield found.start(), "fn " + found[2]


def long_parameters(text):
    for found in FUNCTION.finditer(text):
        names = re.findall(r"\b(\w+): ", found[3].split("->")[0])
        if len(names) > 5:
            yield found.start(), "fn %s, %d parameters" % (found[2], len(names))


def repeated_fields(text):
    for found in re.finditer(r"^ +(\w+): \1,$", text, re.M):
        yield found.start(), found[0].strip()


def slice_and_place(text):
    for found in FUNCTION.finditer(text):
        if re.search(r"\w+: &(?:mut )?\[\w+\],\s*\w+: u(?:32|size)\b", found[3]):
            yield found.start(), "fn " + found[2]


def step_switches(text):
    for found in re.finditer(r"^ *match (taking|sending|step|command|ask_of\(.*\)|phase|n\.phase) \{$", text, re.M):
        yield found.start(), found[0].strip()


KINDS = [
    ("1 enums of the shape of Option or Result", shaped_enums),
    ("1 a flag beside values", flagged_structs),
    ("1 a number for a refusal, 0 for none", numbered_results),
    ("1 a number for a kind", numbered_kinds),
    ("3 loops by hand", hand_loops),
    ("4 conversions and order by hand", hand_conversions),
    ("4 a field named twice", repeated_fields),
    ("5 more than five parameters", long_parameters),
    ("6 a slice with a place beside it", slice_and_place),
    ("7 switches on a step", step_switches),
]


def plain(text):
    text = re.sub(r"//.*", "", text)
    text = re.sub(r"0x[0-9A-Fa-f_]+|\b\d[\d_]*\b", "N", text)
    text = re.sub(r"(?<=[a-z_])(16|32)\b|\bu(8|16|32|64|size)\b", "T", text)
    text = re.sub(r"\b(Host|Uartboot|Receiver|RamAddress|FlashOffset)\b", "S", text)
    return re.sub(r"\s+", " ", text).strip()


def twins(files):
    met = collections.defaultdict(list)
    for path, text in files:
        for found in FUNCTION.finditer(text):
            if len(found[4].strip().splitlines()) > 1:
                met["fn", plain(found[4])].append((path, found.start(), "fn " + found[2]))
        for word in ("enum", "struct"):
            for found in blocks(text, word):
                if found[2].count("\n") > 2:
                    met[word, plain(found[2])].append((path, found.start(), word + " " + found[1]))
    return [same for same in met.values() if len(same) > 1]


def shared_facts(files):
    met = collections.defaultdict(list)
    for path, text in files:
        for found in FUNCTION.finditer(text):
            for fact in set(re.findall(r"requires (?:\w+ )?\{ (.*) \}", found[3])):
                for part in fact.split(" × "):
                    part = re.sub(r"\.(?:now|old)\b", "", part.strip("() "))
                    met[part].append((path, found.start(), "fn " + found[2]))
    return {fact: places for fact, places in met.items() if len(places) > 2}


def main():
    arguments = [word for word in sys.argv[1:] if word != "-v"]
    root = pathlib.Path(arguments[0] if arguments else ".")
    files = [(path, path.read_text()) for path in sorted(root.glob("crates/*/src/**/*.rt"))]
    for name, look in KINDS:
        places = [(path, text, at, what) for path, text in files for at, what in look(text)]
        print(len(places), name)
        for path, text, at, what in places if "-v" in sys.argv else []:
            print("    %s:%d %s" % (path.relative_to(root), line_of(text, at), what))
    facts = shared_facts(files)
    print(sum(len(places) for places in facts.values()), "5 facts required by three functions or more, in", len(facts), "groups")
    for fact, places in facts.items() if "-v" in sys.argv else []:
        print("    %s: %s" % (fact, ", ".join("%s %s" % (path.relative_to(root), what) for path, at, what in places)))
    same = twins(files)
    print(sum(len(group) for group in same), "2 twins, in", len(same), "groups")
    for group in same if "-v" in sys.argv else []:
        print("    " + ", ".join("%s %s" % (path.relative_to(root), what) for path, at, what in group))


main()
