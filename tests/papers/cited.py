"""Whether every file, definition and C function that a paper cites exists."""
import re

from tree import BLOCK, NAME, anchors, declared, links, named

# What begins so, in a paper's backticks, is a path.
PATH = re.compile(r"(?:crates|tests|tool|tools|docs|include|bench|\.ci)/[\w.*/{},-]*|(?:README|CONTRIBUTING)\.md|Makefile|crates\.txt")
FOR_C = re.compile(r"\b(?:und|UND)_\w+\b")


def wrong_links(tree, paper):
    for names, path, anchor in links(paper, tree.text(paper)):
        if not tree.exists(path):
            yield f"{paper}: there is no {path}"
            continue
        text = "" if tree.is_folder(path) else tree.text(path)
        yield from (f"{paper}: {path} does not declare {name}" for name in names if name not in named(path) | declared(path, text))
        if anchor and anchor not in anchors(text):
            yield f"{paper}: {path} has no heading for #{anchor}"


def spread(path):
    """A path with braces, as a shell spreads it."""
    found = re.search(r"\{([^{}]*)\}", path)
    return [path] if not found else [
        other for word in found[1].split(",") for other in spread(path[:found.start()] + word + path[found.end():])]


def named_by(words):
    """The paths that a command's words name: paths, crates after rt, subjects of the tool's tests."""
    for place, word in enumerate(words):
        if PATH.fullmatch(word):
            yield from spread(word)
        elif words[0] == "rt" and place > 1 and re.fullmatch(r"[a-z]\w*", word):
            yield f"crates/{word}"
        elif words[0] == "tests/tool/run" and place > 1:
            yield f"tests/tool/test_{word}.py"


def wrong_paths(tree, paper):
    for quoted in NAME.findall(BLOCK.sub("", tree.text(paper))):
        words = quoted.split(" ")
        paths = [path for path in named_by(words) if not path.startswith("build/")]
        yield from (f"{paper}: there is no {path}" for path in paths if not tree.glob(path.rstrip("/")))


def functions_of_c(tree):
    """What the header declares, what crates give C for measuring, and what the measurements are told."""
    header = declared("undalisho.h", tree.text("include/undalisho.h"))
    measuring = declared("lib.rt", tree.text("crates/crc_c/src/lib.rt"))
    return header | measuring | set(FOR_C.findall(tree.text("bench/run")))


def wrong_functions(tree, paper, known):
    for name in sorted(set(FOR_C.findall(tree.text(paper)))):
        if name not in known and not name.endswith("_"):
            yield f"{paper}: nothing for C has the name {name}"


def wrong(tree):
    for paper in tree.papers:
        yield from wrong_links(tree, paper)
    known = functions_of_c(tree)
    for paper in tree.living:
        yield from wrong_paths(tree, paper)
    for paper in [*tree.living, "tool/undalisho.1"]:
        yield from wrong_functions(tree, paper, known)
