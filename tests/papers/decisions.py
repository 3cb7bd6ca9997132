"""Whether the entries of docs/DECISIONS.md are numbered from 1, each number once, and ascend in each group."""
import re

DECISIONS = "docs/DECISIONS.md"


def wrong(tree):
    groups = [[int(number) for number in re.findall(r"^\*\*(\d+)\. ", part, re.M)]
              for part in re.split(r"^## ", tree.text(DECISIONS), flags=re.M)]
    numbers = sorted(number for group in groups for number in group)
    if numbers != list(range(1, len(numbers) + 1)):
        yield f"{DECISIONS}: entries are not numbered from 1, each number once"
    if any(group != sorted(group) for group in groups):
        yield f"{DECISIONS}: entries do not ascend in their group"
