#!/usr/bin/env python3
"""What undalisho.h and README.md quote: examples, and a program with the command that makes it and what it prints.

quoted.py ROOT header-examples|readme-program|readme-command|readme-output
"""
import re
import sys
from pathlib import Path


def header_examples(root):
    """The code in the comments that begin with 'Example'."""
    text = (Path(root) / "include/undalisho.h").read_text()
    comments = re.findall(r"/\* Example.*?\*/", text, re.DOTALL)
    codes = [comment[comment.index("\n *     "):comment.rindex("\n */")] for comment in comments]
    return "\n".join(re.sub(r"\n \*(     )?", "\n", code).lstrip("\n") + "\n" for code in codes)


def readme_example(root):
    """README's section 'From C': a block of C, then a command after a $ and what it prints, both further in."""
    text = (Path(root) / "README.md").read_text()
    section = re.search(r"^## From C\n(.*?)(?=^## )", text, re.DOTALL | re.MULTILINE)[1]
    found = re.fullmatch(r".*?^```c\n(.*?)^```\n\n    \$ ([^\n]*)\n((?:    [^\n]*\n)+)\n*", section, re.DOTALL | re.MULTILINE)
    if not found:
        sys.exit("quoted: README's section 'From C' does not end with a program, its command and what it prints")
    return found[1], found[2] + "\n", re.sub(r"^    ", "", found[3], flags=re.MULTILINE)


PARTS = {
    "header-examples": header_examples,
    "readme-program": lambda root: readme_example(root)[0],
    "readme-command": lambda root: readme_example(root)[1],
    "readme-output": lambda root: readme_example(root)[2],
}


def main():
    if len(sys.argv) != 3 or sys.argv[2] not in PARTS:
        sys.exit(__doc__)
    sys.stdout.write(PARTS[sys.argv[2]](sys.argv[1]))


if __name__ == "__main__":
    main()
