"""Whether docs/RULES.md and the definitions cite each other."""
import re

from tree import links

RULES = "docs/RULES.md"
HEADING = re.compile(r"^(?:## (\d+)\.|### (\d+\.\d+)) .*$", re.M)
END = re.compile(r"^## (?!\d)", re.M)
PLACE = r"\d+(?:\.\d+)?"
CITED = re.compile(rf"\brules, ({PLACE}(?:(?:, | and | to ){PLACE})*)")
# A citation has to be on one line.
BROKEN = re.compile(r"\(rules,\s*$", re.M)


def sections(text):
    """By chapter and by section, its text; a chapter's is that before its first section."""
    text = text[:next((end.start() for end in END.finditer(text) if end.start() > text.find("\n## 1.")), len(text))]
    heads = [*HEADING.finditer(text)]
    ends = [head.start() for head in heads[1:]] + [len(text)]
    return {head[1] or head[2]: text[head.end():end] for head, end in zip(heads, ends)}


def out_of_order(found):
    """Chapters count from 1, and sections in each from 1."""
    chapters = [place for place in found if "." not in place]
    wanted = []
    for chapter in range(1, len(chapters) + 1):
        inner = [place for place in found if place.startswith(f"{chapter}.")]
        wanted += [str(chapter), *(f"{chapter}.{n}" for n in range(1, len(inner) + 1))]
    if list(found) != wanted:
        yield f"{RULES}: chapters and sections do not count from 1"


def places(cited, found):
    """The sections that a citation names, ranges spread; one that does not exist is named as it is."""
    order, before, spread = list(found), None, []
    for joint, place in re.findall(rf"(, | and | to |^)({PLACE})", cited):
        if joint == " to " and before in found and place in found:
            spread += order[order.index(before) + 1:order.index(place)]
        spread.append(place)
        before = place
    return spread


def citations(text, found):
    return [place for cited in CITED.findall(text) for place in places(cited, found)]


def linked(found):
    """By section, the definitions' files that it links."""
    return {place: {path for _, path, _ in links(RULES, text) if re.fullmatch(r"crates/\w+/specs/\w+\.antt", path)}
            for place, text in found.items()}


def wrong_definitions(tree, found):
    files = linked(found)
    for path in tree.glob("crates/*/specs/*.antt"):
        cited = citations(tree.text(path), found)
        for place in (place for place in cited if place in found):
            chapter = [inner for inner in found if inner == place or "." not in place and inner.startswith(f"{place}.")]
            if not any(path in files[inner] for inner in chapter):
                yield f"{path}: cites rules, {place}, which does not link it"
        for place in (place for place in found if "." in place and path in files[place]):
            if place not in cited and place.split(".")[0] not in cited:
                yield f"{RULES}: {place} links {path}, which does not cite it"


def wrong_citations(tree, found):
    patterns = ("crates/*/specs/**/*.antt", "crates/*/proofs/**/*.antt", "crates/*/src/**/*.rt", "crates/*/*.py", "include/*.h",
                "tool/**/*.[ch]", "tests/**/*.[ch]", "tests/**/*.py")
    for path in [*(path for pattern in patterns for path in tree.glob(pattern)), *tree.papers]:
        if not path.startswith("tests/papers/"):
            yield from (f"{path}: there are no rules, {place}" for place in citations(tree.text(path), found) if place not in found)
            yield from (f"{path}: a citation of rules is not on one line" for _ in BROKEN.findall(tree.text(path)))


def wrong(tree):
    found = sections(tree.text(RULES))
    yield from out_of_order(found)
    yield from wrong_citations(tree, found)
    yield from wrong_definitions(tree, found)
