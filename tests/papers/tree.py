"""The repository's files as text, some of them replaced; what a file declares, and which links and sections a paper has."""
import re
from functools import cached_property
from pathlib import Path

LINK = re.compile(r"\[([^\]\n]*)\]\(([^)\s#]*)(?:#([^)\s]*))?\)")
NAME = re.compile(r"`([^`\n]+)`")
BLOCK = re.compile(r"^```.*?^```$", re.M | re.S)

DEFINED = re.compile(r"^ *(?:abbrev |unfoldable )?(?:pub )?(?:record |data )?((?:[^\s:(){}]+ )+)(?:[({].*)?:(?:\s|$)", re.M)
WRITTEN = re.compile(r"\b(?:fn|struct|enum|trait|const|mod) (\w+)|^ +([A-Z]\w*)(?=[(,])|^impl (\w+)", re.M)
DECLARED = re.compile(r"\b(und_\w+)\(|\b(UND_\w+) =|^\} (und_\w+);", re.M)
PORT = re.compile(r"(?:docs/)?PORT[\w-]*\.md")
METHOD = re.compile(r"^impl(?:<[^\n{]*>)? (\w+)(?:<[^\n{]*>)? \{\n(.*?)^\}", re.M | re.S)
TRAIT = re.compile(r"^pub trait (\w+)[^{\n]* \{\n(.*?)^\}", re.M | re.S)


class Tree:
    """Files by their path from the root. `instead` has the text of some, None for one that is missing. What a tree `like` this one
    has read is not read again."""

    def __init__(self, root, instead=None, like=None):
        self.root, self.instead, self.texts = Path(root), instead or {}, like.texts if like else {}

    def text(self, path):
        if path in self.instead:
            return self.instead[path]
        if path not in self.texts:
            self.texts[path] = (self.root / path).read_text()
        return self.texts[path]

    def exists(self, path):
        return self.instead[path] is not None if path in self.instead else (self.root / path).exists()

    def is_folder(self, path):
        return (self.root / path).is_dir()

    def glob(self, pattern):
        found = sorted(str(path.relative_to(self.root)) for path in self.root.glob(pattern))
        return [path for path in found if self.exists(path)]

    @cached_property
    def papers(self):
        """What people read: landing notes are history, and only their links are held to what is there. The pages on the port have the old
        spelling beside the new, and are not held to anything."""
        found = [*self.glob("*.md"), *self.glob("docs/*.md"), *self.glob("docs/landings/*.md")]
        return [path for path in found if not PORT.fullmatch(path)]

    @cached_property
    def living(self):
        return [path for path in self.papers if not path.startswith("docs/landings/")]


def words(pattern, text):
    return {word for found in pattern.findall(text) for part in ([found] if isinstance(found, str) else found) for word in part.split()}


def methods(text):
    """`Type::name` of every function in a block `impl Type`, `Trait::name` of every one in a public trait."""
    blocks = [*METHOD.findall(text), *TRAIT.findall(text)]
    return {f"{kind}::{name}" for kind, body in blocks for name in re.findall(r"\bfn (\w+)", body)}


def named(path):
    """What a link's text may call a file or a folder itself: its path or the end of it, with or without its ending."""
    parts = path.split("/")
    return {"/".join(parts[start:]) for start in range(len(parts))} | {parts[-1].rpartition(".")[0]}


def declared(path, text):
    """The names that a file declares; of a file in no language of ours, all its words."""
    if path.endswith(".antt"):
        return words(DEFINED, text)
    if path.endswith(".rt"):
        return words(WRITTEN, text) | methods(text)
    if path.endswith(".h"):
        return words(DECLARED, text)
    return set(re.findall(r"[\w-]+", text))


def slug(heading):
    """A heading's anchor, as a reader's browser knows it."""
    return re.sub(r"[^\w\- ]", "", heading.lower()).replace(" ", "-")


def anchors(text):
    return {slug(heading) for heading in re.findall(r"^#+ (.*)$", text, re.M)}


def target(paper, link):
    """The path from the root that a link in a paper names."""
    parts = []
    for part in (Path(paper).parent / link).parts:
        if part == ".." and parts:
            parts.pop()
        else:
            parts.append(part)
    return "/".join(parts)


def links(paper, text):
    """Each link within the repository: the names in its text, the path that it names, its anchor."""
    for said, path, anchor in LINK.findall(text):
        if not re.match(r"\w+:", path):
            yield NAME.findall(said), target(paper, path) if path else paper, anchor
