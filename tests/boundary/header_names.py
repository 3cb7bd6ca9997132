"""The names that a header declares."""
import re
import subprocess


def own_text(header):
    """What is left of the header itself, without comments and what it includes, once it is preprocessed."""
    ran = subprocess.run(["gcc", "-E", "-x", "c", str(header)], check=True, capture_output=True, text=True)
    own, lines = False, []
    for line in ran.stdout.splitlines():
        if line.startswith("# "):
            own = line.split('"')[1] == str(header)
        elif own:
            lines.append(line)
    return " ".join(" ".join(lines).split())


def statements(text):
    """The parts that end in a semicolon outside of all braces."""
    depth, start = 0, 0
    for place, sign in enumerate(text):
        depth += (sign == "{") - (sign == "}")
        if sign == ";" and depth == 0:
            yield text[start:place].strip()
            start = place + 1
    if rest := text[start:].strip():
        yield rest


FUNCTION = r"[\w ]+[ *](\w+) ?\(([^()]*)\)"


def names_of(header):
    """'function NAME' and 'struct NAME', sorted; a ValueError where it declares anything else but constants."""
    names = []
    for text in statements(own_text(header)):
        if struct := re.fullmatch(r"typedef struct \{[^{}]*\} (\w+)", text):
            names.append(f"struct {struct[1]}")
        elif function := re.fullmatch(FUNCTION, text):
            names.append(f"function {function[1]}")
        elif not re.fullmatch(r"enum \{[^{}]*\}", text):
            raise ValueError(f"{header}: '{text}' is neither a struct, a function nor constants")
    return sorted(names)


def parameter_names(header):
    """The names of each function's parameters, in order: types don't tell two lent memories apart."""
    functions = [found for text in statements(own_text(header)) if (found := re.fullmatch(FUNCTION, text))]
    return {found[1]: re.findall(r"(\w+)(?:\[\w*\])?(?:,|$)", found[2]) for found in functions}
