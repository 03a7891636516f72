"""Compiles misuses of every call of the header and looks for the warning of each.

    misuse.py FOLDER COMPILER STANDARD...

A result that is not used: every compiler that is tried must warn, of each call. A block that is passed as an output and once more in
the same call, as an input or as the other output: gcc must warn under -Wall, of each call and each such pair. The sources are written
into FOLDER. The exit status is 1 if a warning is missing.
"""

import os
import re
import subprocess
import sys

HERE = os.path.dirname(os.path.abspath(__file__))
sys.path.insert(0, os.path.join(HERE, "../../tools"))

from check_calls import prototypes  # noqa: E402  (the folder has to be named first)

OUTPUT = "WIMBLORQUE_RESTRICT"
NAMES = "const uint64_t *in, const uint8_t *bytes_in, uint64_t *out, uint8_t *bytes_out, uint64_t *other, uint64_t *same"


def call(name, types, same=()):
    """A call with something for each parameter; those at the places `same` are one block."""
    outputs = iter(("out", "other"))
    given = []
    for place, kind in enumerate(types[:-1]):
        if place in same:
            given.append("same")
        elif "*" not in kind:
            given.append("7")
        elif OUTPUT in kind:
            given.append("bytes_out" if "uint8_t" in kind else next(outputs))
        else:
            given.append("bytes_in" if "uint8_t" in kind else "in")
    return f"{name}({', '.join(given)})"


def functions(statements):
    """A C file with each statement in a function of its own, on a line of its own."""
    lines = ['#include "wimblorque.h"']
    for i, statement in enumerate(statements):
        lines.append(f"void f{i}({NAMES});")
        lines.append(f"void f{i}({NAMES}) {{ {statement};")
        lines.append("(void)in; (void)bytes_in; (void)out; (void)bytes_out; (void)other; (void)same; }")
    return "\n".join(lines) + "\n"


def aliased(declared):
    """Each call with one block for an output and for another of its word blocks."""
    for name, types in declared.items():
        outputs = [i for i, kind in enumerate(types) if OUTPUT in kind and "uint64_t" in kind]
        for out in outputs:
            for i, kind in enumerate(types):
                if "uint64_t *" in kind and i != out and (OUTPUT not in kind or i < out):
                    yield "(void)" + call(name, types, (i, out)) + ".status"


def warned(folder, compiler, standard, what, source, option):
    """How many functions of a source the compiler warns of, by an option of -Wall."""
    plus = standard.startswith("c++")
    path = os.path.join(folder, f"{what}.{'cpp' if plus else 'c'}")
    with open(path, "w", encoding="ascii") as f:
        f.write(source)
    words = [compiler, f"-std={standard}", "-Wall", "-I" + os.path.join(HERE, "../../include"), "-c", path, "-o", os.devnull]
    done = subprocess.run(words, stderr=subprocess.PIPE, check=False, env={**os.environ, "LC_ALL": "C"})
    text = done.stderr.decode("utf-8", "replace")
    if done.returncode != 0:
        print(text, file=sys.stderr)
    return len(set(re.findall(r":(\d+):\d+: warning: [^\n]*\[-W" + option, text)))


def main():
    """The test."""
    folder, compiler, *standards = sys.argv[1:]
    declared = prototypes()
    unused = [call(name, types) for name, types in declared.items()]
    twice = list(aliased(declared))
    for standard in standards:
        found = warned(folder, compiler, standard, "unused", functions(unused), "unused-result")
        if found != len(unused):
            print(f"edge: {compiler} -std={standard}: a result that is not used: {found} warnings of {len(unused)} calls", file=sys.stderr)
            return 1
        if "clang" in compiler:
            continue
        found = warned(folder, compiler, standard, "twice", functions(twice), "restrict")
        if found != len(twice):
            print(f"edge: {compiler} -std={standard}: an output passed twice: {found} warnings of {len(twice)} misuses", file=sys.stderr)
            return 1
    said = "" if "clang" in compiler else f" and of {len(twice)} outputs that are passed twice"
    print(f"edge: {compiler} warns of {len(unused)} results that are not used{said}: {' '.join(standards)}")
    return 0


if __name__ == "__main__":
    sys.exit(main())
