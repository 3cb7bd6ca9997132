#!/usr/bin/env python3
"""Whether undalisho.h, the Rattle sources and the archive have the same functions, structs and phases.

agree.py ROOT ARCHIVE
"""
import itertools
import os
import subprocess
import sys
import tempfile
from pathlib import Path

import header_names
import phases
import signatures

GCC = ["gcc", "-Wall", "-Wextra", "-Wpedantic", "-Werror"]

# size_t is one fixed-width type in the first and another in the second, so it is told from both.
MACHINES = [["-m64"], ["-m32", "-ffreestanding"]]

CLAIMS = [Path(__file__).with_name(f"{name}.c") for name in ("claims", "numbers", "claims_host", "claims_tray", "claims_replay")]
PHASES = [Path(__file__).with_name(name) for name in ("phases.c", "phases_host.c")]
INSTALLED, COMPARED = "tests/boundary/installed.c", "tests/compare/*.c"


class Differs(Exception):
    """What does not agree."""


def run(where, command, **words):
    ran = subprocess.run(command, capture_output=True, text=True, env={**os.environ, "LC_ALL": "C"}, **words)
    if ran.returncode != 0:
        raise Differs(f"{where}:\n{ran.stdout}{ran.stderr}")
    return ran.stdout


def same_names(where, names, others):
    """Refuses names that are not those of the Rattle sources, the others."""
    if names != others:
        more, missing = sorted(set(names) - set(others)), sorted(set(others) - set(names))
        raise Differs(f"{where} has {more or 'nothing'} that the sources do not have, and lacks {missing or 'nothing'}")


def check_archive(functions, archive):
    """The archive's global symbols are the functions, and no other."""
    lines = run("the archive", ["nm", "-g", "--defined-only", str(archive)]).splitlines()
    symbols = [line.split()[1:] for line in lines if len(line.split()) == 3]
    names = sorted(f"function {name}" if kind == "T" else f"{kind} {name}" for kind, name in symbols)
    same_names("the archive", names, signatures.names_of(functions, []))


def check_header(functions, structs, header):
    c = signatures.c_file(functions, structs)
    for machine in MACHINES:
        run("the header", [*GCC, *machine, "-std=c11", "-fsyntax-only", "-I", str(header.parent), "-x", "c", "-"], input=c)
    try:
        names = header_names.names_of(header)
    except ValueError as error:
        raise Differs(str(error)) from None
    same_names("the header", names, signatures.names_of(functions, structs))
    wanted = signatures.parameter_names(functions)
    for name, given in header_names.parameter_names(header).items():
        if given != wanted[name]:
            raise Differs(f"the header gives {name} the parameters {given}, the sources {wanted[name]}")


def check_callers(functions, root):
    """Every function is called by the program over the installed library, and by the comparison with the model."""
    for where in INSTALLED, COMPARED:
        text = "".join(path.read_text() for path in sorted(Path(root).glob(where)))
        missing = [function.name for function in functions if f"{function.name}(" not in text]
        if missing:
            raise Differs(f"{where} does not call {missing}")


def run_over(include, archive, source, folder):
    """What a program over the header and the archive says."""
    program = str(folder / source.stem)
    run("the header", [*GCC, "-std=c99", "-I", str(include), str(source), str(archive), "-o", program])
    return run("the header", [program])


def check_claims(include, archive, folder):
    for claims in CLAIMS:
        run_over(include, archive, claims, folder)


def check_phases(root, archive, folder):
    """The words that a phase uses, and a host's commands that have it: in the header's tables and in the library."""
    library = [line for asks in PHASES for line in run_over(Path(root) / "include", archive, asks, folder).splitlines()]
    for said, given in itertools.zip_longest(phases.header_lines(root), library):
        if said != given:
            raise Differs(f"the header has the phase '{said}', the library '{given}'")


def agree(root, archive):
    """How many functions and structs there are, or Differs."""
    try:
        functions, structs = signatures.boundary_of(root)
    except signatures.Unknown as unknown:
        raise Differs(f"signatures: {unknown}") from None
    include = Path(root) / "include"
    with tempfile.TemporaryDirectory() as folder:
        check_header(functions, structs, include / "undalisho.h")
        check_archive(functions, archive)
        check_callers(functions, root)
        check_claims(include, archive, Path(folder))
        check_phases(root, archive, Path(folder))
    return len(functions), len(structs)


def main():
    if len(sys.argv) != 3:
        sys.exit(__doc__)
    try:
        functions, structs = agree(*sys.argv[1:])
    except Differs as differs:
        sys.exit(f"boundary: header, Rattle sources and archive do not agree:\n{differs}")
    print(f"boundary: {functions} functions, {structs} structs agree in header, Rattle sources and archive; phases too")


if __name__ == "__main__":
    main()
