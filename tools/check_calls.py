#!/usr/bin/env python3
"""Holds docs/CALLS.md against the tree: every public function of a public crate has one row and no requires, its signature is the
source's, and every definition, law, edit and test that a row names exists. Holds include/wimblorque.h against the exports of `host`.
Prints what is wrong and ends with status 1, or says how many rows were held."""
import os
import re
import sys

ROOT = os.path.dirname(os.path.dirname(os.path.abspath(__file__)))
CALLS = os.path.join(ROOT, "docs", "CALLS.md")


def read(*parts):
    with open(os.path.join(ROOT, *parts), encoding="utf-8") as f:
        return f.read()


def public_crates(text):
    """The crates that CALLS.md says are given to users: one heading each, '## `name`'."""
    return re.findall(r"^## `(\w+)`", text, re.M)


def headed(source, indent, public):
    """Name to signature, white space folded, of each function of a source that stands at an indent."""
    found = {}
    for m in re.finditer(
        "^" + indent + r"(?:#\[unsafe\(no_mangle\)\]\s+)?" + public + r'(?:extern "C" )?fn (\w+)(<[^>]*>)?\s*\((.*?)\)\s*(->\s*[^\n{]+)?\s*(?:\{|$)',
        source,
        re.M | re.S,
    ):
        arguments = re.sub(r"\s+", " ", m.group(3)).strip().rstrip(",").replace("'a ", "")
        answer = " " + re.sub(r"\s+", " ", m.group(4)).strip().replace("'a ", "") if m.group(4) else ""
        found[m.group(1)] = f"{m.group(1)}({arguments}){answer}"
    return found


def sources(crate):
    """Each source of a crate, and the crate's types that are given to users: those that lib.rt declares, or hands on from a module."""
    folder = os.path.join(ROOT, "crates", crate, "src")
    texts = {name: read("crates", crate, "src", name) for name in sorted(os.listdir(folder))}
    root = texts["lib.rt"]
    handed = " ".join(re.findall(r"^pub use (.*?);", root, re.M | re.S))
    types = set()
    for name, source in texts.items():
        module = name.removesuffix(".rt")
        declared = set(re.findall(r"^pub (?:struct|enum|trait) (\w+)", source, re.M))
        every = name == "lib.rt" or re.search(r"^pub mod " + module + ";", root, re.M) or module + "::*" in handed
        types |= declared if every else declared & set(re.findall(r"\w+", handed))
    for source in texts.values():
        yield source, types


def methods(source, types):
    """Of each block of a source that has methods of these types or conversions to or from others: the type, whether every function in it
    is public, and its body."""
    for m in re.finditer(r"^impl (?:((?:Try)?From)<\w+> for )?(\w+)(?:<[^>]*>)? \{\n(.*?)^\}", source, re.M | re.S):
        if m.group(1) or m.group(2) in types:
            yield m.group(2), bool(m.group(1)), m.group(3)


def signatures(crate):
    """Name to signature of each public function of a crate, of its types' public methods and of its conversions (From, TryFrom)."""
    found = {}
    for source, types in sources(crate):
        found |= headed(source, "", "pub ")
        for owner, every, body in methods(source, types):
            for method, signature in headed(body, "    ", "" if every else "pub ").items():
                found[f"{owner}::{method}"] = f"{owner}::{signature}"
    return found


def asked(source, indent, public):
    """The functions of a source that stand at an indent and ask something of their caller."""
    for m in re.finditer("^" + indent + public + r'(?:extern "C" )?fn (\w+)(.*?)(?:^' + indent + r"\{| \{)$", source, re.M | re.S):
        if re.search(r"^\s+requires\b", m.group(2), re.M):
            yield m.group(1)


def asking(crate):
    """The public functions of a crate, its types' methods and its conversions that ask something of their caller."""
    found = []
    for source, types in sources(crate):
        found += asked(source, "", "pub ")
        for owner, every, body in methods(source, types):
            found += [f"{owner}::{name}" for name in asked(body, "    ", "" if every else "pub ")]
    return found


def defines(path, name):
    """Whether an antt file declares a public name."""
    pattern = r"^\s*(?:abbrev |unfoldable )?pub (?:record |data )?" + re.escape(name) + r"(?=[\s:(])"
    return re.search(pattern, read(path), re.M) is not None


def named(cell):
    return re.findall(r"`([^`]+)`", cell)


def definitions_missing(what, cell, kind):
    """What is wrong with the definitions or laws that a cell names."""
    if not named(cell):
        yield f"no {what} is named"
    for ref in named(cell):
        where, _, item = ref.rpartition(".")
        owner, _, module = where.partition("/")
        path = os.path.join("crates", owner, kind, module + ".antt")
        if not os.path.exists(os.path.join(ROOT, path)):
            yield f"{what} `{ref}`: there is no {path}"
        elif not defines(path, item):
            yield f"{what} `{ref}` is not in {path}"


def files_missing(what, cell, path_of):
    """What is wrong with the edits or tests that a cell names."""
    if not named(cell):
        yield f"no {what} is named"
    for ref in named(cell):
        if not os.path.exists(os.path.join(ROOT, path_of(ref))):
            yield f"there is no {what} `{ref}`"


def edit_path(ref):
    owner, _, edit = ref.partition("/")
    return os.path.join("crates", owner, "must-fail", edit + ".edit")


def row_faults(line, due):
    """What is wrong with one row; the function that it is about is taken out of those that are due a row."""
    cells = [c.strip() for c in line.strip().strip("|").split(" | ")]
    if len(cells) != 6:
        yield f"a row has {len(cells)} cells, not 6: {line[:60]}"
        return
    call, _, outcome, laws, edits, tests = cells
    signature = named(call)[0]
    name = signature.split("(", 1)[0]
    if name not in due:
        yield f"{name}: no such public function, or a second row for it"
    elif due.pop(name) != signature:
        yield f"{name}: the source's signature differs from `{signature}`"
    for fault in (
        *definitions_missing("definition", outcome, "specs"),
        *definitions_missing("law", laws, "proofs"),
        *files_missing("must-fail edit", edits, edit_path),
        *files_missing("test", tests, lambda ref: ref),
    ):
        yield f"{name}: {fault}"


def crate_faults(crate, part):
    """What is wrong with the rows of one crate."""
    due = signatures(crate)
    for name in asking(crate):
        yield f"{name}: a call that a user is given has a requires"
    for line in part.splitlines():
        if line.startswith("| `"):
            yield from row_faults(line, due)
    for name in due:
        yield f"{name}: a public function with no row"


C_TYPES = {
    "&[u64]": ["const uint64_t *", "size_t"],
    "&mut [u64]": ["uint64_t *WIMBLORQUE_RESTRICT", "size_t"],
    "&[u8]": ["const uint8_t *", "size_t"],
    "&mut [u8]": ["uint8_t *WIMBLORQUE_RESTRICT", "size_t"],
    "u64": ["uint64_t"],
    "i64": ["int64_t"],
    "usize": ["size_t"],
    "Told": ["wimblorque_answer"],
}


def prototypes():
    """Name to the C types, parameters and then the result with its mark, of each call that the header declares."""
    found = {}
    text = re.sub(r"/\*.*?\*/", "", read("include", "wimblorque.h"), flags=re.S)
    for m in re.finditer(r"^((?:WIMBLORQUE_MUST_USE )?\w+) (wimblorque_\w+)\((.*?)\);", text, re.M | re.S):
        parameters = [re.sub(r"\s*\w+$", "", re.sub(r"\s+", " ", p).strip()) for p in m.group(3).split(",")]
        found[m.group(2)] = [re.sub(r"(?<! )\*", " *", p) for p in parameters] + [m.group(1)]
    return found


def header_faults():
    """Where the header's prototypes differ from the exported functions. Each result must be used, and each pointer that a call writes
    through is restrict-qualified: both by the header's macros."""
    declared = prototypes()
    for name, signature in signatures("host").items():
        arguments, _, answer = signature.split("(", 1)[1].rpartition(") -> ")
        types = [c for a in arguments.split(", ") for c in C_TYPES[a.split(": ", 1)[1]]] + ["WIMBLORQUE_MUST_USE " + C_TYPES[answer][0]]
        if declared.pop(name, None) != types:
            yield f"{name}: include/wimblorque.h does not declare it with {', '.join(types)}"
    for name in declared:
        yield f"{name}: declared in include/wimblorque.h, and no such export"


def main():
    text = read("docs", "CALLS.md")
    wrong = [f"include/wimblorque.h: {fault}" for fault in header_faults()]
    for crate in public_crates(text):
        part = text.split(f"## `{crate}`", 1)[1].split("\n## ", 1)[0]
        wrong += [f"{crate}::{fault}" for fault in crate_faults(crate, part)]
    for line in wrong:
        print("check_calls:", line, file=sys.stderr)
    if wrong:
        return 1
    print(f"check_calls: {text.count(chr(10) + '| `')} public calls, each with its row; the header has the exports")
    return 0


if __name__ == "__main__":
    sys.exit(main())
