#!/usr/bin/env python3
"""The functions for C as the Rattle sources have them.

signatures.py ROOT  writes a C file that includes undalisho.h and declares all of it again: a compiler refuses it where the
                    header differs
"""
import re
import sys
from pathlib import Path
from typing import NamedTuple

# The header's name for each Rattle struct.
TYPEDEFS = {
    "Ranked": "und_ranked",
    "Ordered": "und_ordered",
    "Selected": "und_selected",
    "Offered": "und_offered",
    "Called": "und_report",
    "Framed": "und_framed",
    "ImageRead": "und_image",
    "ProductRead": "und_product",
    "CommandRead": "und_command",
    "ImageHeader": "und_image_header",
    "ProductHeader": "und_product_header",
    "Replayed": "und_replayed",
}

# The header's name for a Rattle parameter of one function, or of all, where it has another.
PARAMETERS = {
    "und_select offset": "header_offset",
    "und_read_product offset": "header_offset",
    "words": "record",
}

# The C name of each Rattle number.
NUMBERS = {"u8": "uint8_t", "u32": "uint32_t", "i32": "int32_t", "usize": "size_t"}

EXPORTED = r'#\[unsafe\(no_mangle\)\]\s*pub extern "C" fn (\w+)\s*\(([^()]*)\)\s*(?:->\s*(.+?)\s*)?(?=\brequires\b|\bensures\b|\{)'
STRUCT = r"#\[repr\(C\)\]\s*(?:#\[derive\([^()]*\)\]\s*)?pub struct %s\s*\{([^{}]*)\}"
ALIAS = r"\btype %s\s*=\s*(\[[^\[\]]*\]|\w+)\s*;"
CONSTANT = r"\bconst %s\s*:\s*usize\s*=\s*([\d_]+)\s*;"
ARRAY = r"\[(\w+); (\w+)\]"


class Unknown(Exception):
    """Something in the sources that this script does not know."""


class Field(NamedTuple):
    name: str
    element: str
    bound: str  # "[4]" of an array, "" of a number


class Struct(NamedTuple):
    name: str
    typedef: str
    fields: list


class Parameter(NamedTuple):
    kind: str
    name: str


class Function(NamedTuple):
    name: str
    result: str
    parameters: list


class Source:
    """A Rattle file without its comments."""

    def __init__(self, crates, crate, modules=()):
        self.crates, self.crate = crates, crate
        self.path = (crates / crate / "src").joinpath(*(modules or ["lib"])).with_suffix(".rt")
        try:
            self.text = re.sub(r"//[^\n]*", "", self.path.read_text())
        except OSError as error:
            raise Unknown(f"{self.path}: {error.strerror}") from None

    def item(self, pattern, name):
        """The item of this name, here or where a use line says, with its file."""
        if found := re.search(pattern % name, self.text):
            return found[1], self
        used = re.search(rf"^use ([\w:]+)::(?:{name}|\{{(?:[^{{}};]*[\s,])?{name}(?:,[^{{}};]*|\s*)\}});", self.text, re.MULTILINE)
        if not used:
            raise Unknown(f"{self.path}: '{name}' is neither defined here in a form that is known, nor in a use line")
        crate, *modules = used[1].split("::")
        return Source(self.crates, self.crate if crate == "crate" else crate, modules).item(pattern, name)


def count_of(text, source):
    if not text[0].isdigit():
        text, _ = source.item(CONSTANT, text)
    return int(text)


def array_of(text, source):
    """The C type and bound of '[u32; 8]', or None."""
    found = re.fullmatch(ARRAY, text)
    if not found or found[1] not in NUMBERS:
        return None
    return NUMBERS[found[1]], f"[{count_of(found[2], source)}]"


def field_of(text, source):
    found = re.fullmatch(r"pub (\w+): (.+)", " ".join(text.split()))
    if not found:
        raise Unknown(f"{source.path}: the field '{text.strip()}' is not known")
    name, kind = found.groups()
    if kind in NUMBERS:
        return Field(name, NUMBERS[kind], "")
    if re.fullmatch(r"\w+", kind):
        kind, source = source.item(ALIAS, kind)
    if array := array_of(kind, source):
        return Field(name, *array)
    raise Unknown(f"{source.path}: the type '{kind}' of the field '{name}' is not known")


def struct_of(name, source):
    body, source = source.item(STRUCT, name)
    return Struct(name, TYPEDEFS[name], [field_of(field, source) for field in body.split(",") if field.strip()])


def parameters_of(text, function, source):
    """The C parameters of a function's Rattle parameter: a slice has two."""
    name, kind = (" ".join(part.split()) for part in text.split(":", 1))
    name = PARAMETERS.get(f"{function} {name}") or PARAMETERS.get(name, name)
    if kind in NUMBERS:
        return [Parameter(NUMBERS[kind], name)]
    found = re.fullmatch(r"&(mut )?(\[.+\])", kind)
    const = "" if found and found[1] else "const "
    if found and found[2][1:-1] in NUMBERS:
        return [Parameter(f"{const}{NUMBERS[found[2][1:-1]]} *", name), Parameter("size_t", f"{name}_len")]
    if array := found and array_of(found[2], source):
        return [Parameter(f"{const}{array[0]} {array[1]}", name)]
    raise Unknown(f"{source.path}: the parameter '{text.strip()}' has a type that is not known")


def result_of(kind, source):
    if kind is None:
        return "void"
    if kind in NUMBERS or kind in TYPEDEFS:
        return NUMBERS.get(kind) or TYPEDEFS[kind]
    raise Unknown(f"{source.path}: the result type '{kind}' is not known")


def exported_of(source):
    """The functions of one crate that C calls, and the structs that they give back."""
    found = re.findall(EXPORTED, source.text, re.DOTALL)
    if not found or {len(found)} != {source.text.count('extern "C"'), source.text.count("no_mangle")}:
        raise Unknown(f'{source.path}: not every extern "C" has the form \'#[unsafe(no_mangle)] pub extern "C" fn NAME(..)\'')
    functions = []
    for name, parameters, kind in found:
        given = [c for text in parameters.split(",") if text.strip() for c in parameters_of(text, name, source)]
        functions.append(Function(name, result_of(kind or None, source), given))
    kinds = dict.fromkeys(kind for _, _, kind in found if kind in TYPEDEFS)
    return functions, [struct_of(kind, source) for kind in kinds]


def each_once(structs):
    """Functions of several crates may give back the same struct, but not two of one name."""
    found = {}
    for struct in structs:
        if found.setdefault(struct.name, struct) != struct:
            raise Unknown(f"the crates for C have two structs '{struct.name}' that differ")
    return list(found.values())


def boundary_of(root):
    """The same of all crates that C calls: capi, and those whose names begin with capi_."""
    crates = Path(root) / "crates"
    names = sorted(path.name for path in crates.iterdir() if path.name == "capi" or path.name.startswith("capi_"))
    parts = [exported_of(Source(crates, name)) for name in names]
    return [f for functions, _ in parts for f in functions], each_once(s for _, structs in parts for s in structs)


def names_of(functions, structs):
    """As header_names.names_of gives them of a header."""
    return sorted([f"function {f.name}" for f in functions] + [f"struct {s.typedef}" for s in structs])


def parameter_names(functions):
    """As header_names.parameter_names gives them of a header."""
    return {f.name: [p.name for p in f.parameters] for f in functions}


def struct_check(struct):
    """The struct once more, from the Rattle fields, and what must be equal. The constant at its end has one value for each
    field: it is refused where the header has more fields, or fewer."""
    c, mirror = struct.typedef, f"struct from_{struct.name}"
    lines = [f"{mirror} {{ " + " ".join(f"{f.element} {f.name}{f.bound};" for f in struct.fields) + " };"]
    for f in struct.fields:
        lines += [
            f"_Static_assert(__builtin_types_compatible_p(__typeof__((({c} *)0)->{f.name}), {f.element}{f.bound}),"
            f' "{c}.{f.name}: type");',
            f'_Static_assert(offsetof({c}, {f.name}) == offsetof({mirror}, {f.name}), "{c}.{f.name}: place");',
        ]
    lines.append(f'_Static_assert(sizeof({c}) == sizeof({mirror}), "{c}: size");')
    values = ", ".join("{ 1 }" if f.bound else "1" for f in struct.fields)
    lines.append(f"const {c} every_field_of_{c} = {{ {values} }};")
    return "\n".join(lines)


def c_file(functions, structs):
    prototypes = [f"{f.result} {f.name}({', '.join(p.kind for p in f.parameters) or 'void'});" for f in functions]
    parts = ["/* Made by signatures.py from the Rattle sources. */", '#include "undalisho.h"']
    return "\n\n".join(parts + [struct_check(s) for s in structs] + ["\n".join(prototypes)]) + "\n"


def main():
    if len(sys.argv) != 2:
        sys.exit(__doc__)
    try:
        sys.stdout.write(c_file(*boundary_of(sys.argv[1])))
    except Unknown as unknown:
        sys.exit(f"signatures: {unknown}")


if __name__ == "__main__":
    main()
