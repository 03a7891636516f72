#!/usr/bin/env python3
"""Writes docs/TRACE.md: from each requirement to the definitions that state it, the theorems about it, the edits that must fail and the
tests. With --check, says whether the page that is there is the one that it would write. Either way it fails where a requirement has
nothing of what its kind needs, where a comment names a requirement that there is not, and where a test that is named does not contain
the call.

Definitions, theorems, edits and code say in their comments which requirements they are about, '[S1, R17]'. The rows of docs/CALLS.md
bring the edits and the tests of the calls whose outcome is such a definition."""
import os
import re
import sys

sys.path.insert(0, os.path.dirname(os.path.abspath(__file__)))
import antt  # noqa: E402

PAGE = os.path.join(antt.ROOT, "docs", "TRACE.md")
COLUMNS = ["definitions", "theorems", "edits", "tests", "code"]
# What a requirement needs, by the letter of its number.
NEEDS = {
    **{letter: ["definitions", "theorems", "edits", "tests"] for letter in "BRSFAMUYKPCHW"},
    "L": ["theorems", "edits", "tests", "code"],
    "D": ["theorems"],
    "E": ["edits"],
    "N": ["tests"],
    "G": ["code"],
}
# What one that differs from its kind needs: the program is run; the calls that serve signed sets too have the definitions of plain sets; that
# two methods agree, that with j = 0 a call is the one without j, that damage is noticed, that an old form gives the new one and is read as ever are no definitions; what rests on the
# one search is a matter of the code, and that neighbours can be shown one of theorems.
OWN_NEEDS = {"H3": ["tests", "code"], "K4": ["theorems", "edits", "tests"], "P6": ["theorems", "tests"]}
OWN_NEEDS |= {"A6": ["theorems", "edits", "tests"]}
OWN_NEEDS |= {number: ["theorems", "tests"] for number in ("C4", "C5", "C6", "W3")}
OWN_NEEDS |= {"W2": ["definitions", "theorems", "edits", "tests", "code"], "W4": ["edits", "tests", "code"]}
# Programs and tables of tests, where a line says in a comment which requirement it is about.
TESTS = [
    "crates/demands/proofs/Table.antt",
    "crates/forms/proofs/Cases.antt",
    "crates/cases/src/main.rt",
    "crates/inputs/src/main.rt",
    "tests/c/member.c",
    "tests/differential/damage.py",
    "tests/differential/generate.py",
    "tests/edge/run",
]


class Trace:
    def __init__(self):
        self.numbers = antt.requirements()
        self.cells = {n: {c: [] for c in COLUMNS} for n in self.numbers}
        self.faults = []

    def add(self, where, comment, column, what):
        for n in antt.tags(comment):
            if n not in self.cells:
                self.faults.append(f"{where} names a requirement {n} that there is not")
            elif what not in self.cells[n][column]:
                self.cells[n][column].append(what)


def declared(trace):
    """Definitions of specs/, and theorems: those of demands/specs and those of any proofs/ that name a requirement."""
    for kind, column in (("specs", "definitions"), ("proofs", "theorems")):
        for crate, module, path in antt.antt_files(kind):
            for item in antt.items(path):
                to = "theorems" if crate == "demands" else column
                trace.add(path, item.comment, to, f"`{crate}/{module}.{item.name}`")


def edited(trace):
    for crate in sorted(os.listdir(os.path.join(antt.ROOT, "crates"))):
        folder = os.path.join("crates", crate, "must-fail")
        if os.path.isdir(os.path.join(antt.ROOT, folder)):
            for name in sorted(os.listdir(os.path.join(antt.ROOT, folder))):
                comment = " ".join(line for line in antt.read(folder, name).splitlines() if line.startswith("#"))
                trace.add(os.path.join(folder, name), comment, "edits", f"`{crate}/{name[:-5]}`")


def coded(trace):
    for crate in sorted(os.listdir(os.path.join(antt.ROOT, "crates"))):
        folder = os.path.join("crates", crate, "src")
        for name in sorted(os.listdir(os.path.join(antt.ROOT, folder))):
            source = antt.read(folder, name)
            for m in re.finditer(r"((?:^[ ]*//[^\n]*\n)+)(?:[ ]*#\[[^\n]*\]\n)*[^\n]*?fn (\w+)", source, re.M):
                trace.add(folder, m.group(1), "code", f"`{crate}::{m.group(2)}`")
            for m in re.finditer(r"((?:^//[^\n]*\n)+)impl (From|TryFrom)<\w+> for (\w+) ", source, re.M):
                method = "from" if m.group(2) == "From" else "try_from"
                trace.add(folder, m.group(1), "code", f"`{crate}::{m.group(3)}::{method}`")


def tested(trace):
    for path in TESTS:
        if os.path.exists(os.path.join(antt.ROOT, path)):
            trace.add(path, antt.read(path), "tests", f"`{path}`")


def called(trace):
    """The rows of CALLS.md: each test that a row names contains the call, and the row's edits and tests are its definitions'."""
    stated = {}
    for n in trace.numbers:
        for d in trace.cells[n]["definitions"]:
            stated.setdefault(d, []).append(n)
    for line in antt.read("docs", "CALLS.md").splitlines():
        cells = [c.strip() for c in line.strip().strip("|").split(" | ")]
        if not line.startswith("| `") or len(cells) != 6:
            continue
        call, _, outcome, _, edits, tests = cells
        name = re.match(r"`((?:\w+::)?\w+)\(", call).group(1)
        for test in re.findall(r"`([^`]+)`", tests):
            if not mentions(test, name, outcome.split(", ")[0]):
                trace.faults.append(f"docs/CALLS.md: the test {test} of {name} does not contain it")
        for definition in re.findall(r"`[^`]+`", outcome):
            for n in stated.get(definition, []):
                for column, cell in (("edits", edits), ("tests", tests)):
                    for what in re.findall(r"`[^`]+`", cell):
                        if what not in trace.cells[n][column]:
                            trace.cells[n][column].append(what)


def mentions(test, call, outcome):
    """Whether a test's file, or the files of its folder, has the call by its name or by its definition's."""
    names = [call, "wimblorque_" + call] + [d.rpartition(".")[2] for d in re.findall(r"`([^`]+)`", outcome)]
    path = os.path.join(antt.ROOT, test)
    folder = os.path.dirname(path)
    paths = [path] if not test.endswith(("/run", ".out", "/stdout")) else [
        os.path.join(at, f) for at, _, fs in os.walk(folder) for f in fs if f.endswith((".py", ".c", ".rt"))
    ]
    text = "".join(open(p, encoding="utf-8").read() for p in paths)
    return any(re.search(r"\b" + re.escape(n) + r"\b", text) for n in names)


def page(trace):
    out = [
        "# Trace",
        "",
        "Made by `tools/trace.py`; do not edit. From each requirement of [REQUIREMENTS.md](REQUIREMENTS.md) to what states it, what is",
        "proved of it, the wrong programs that are refused for it, and where it is run. `crate/File.name` is `name` in",
        "`crates/crate/specs/File.antt` (definitions; theorems of `demands`) or `crates/crate/proofs/File.antt`; an edit `crate/name` is",
        "`crates/crate/must-fail/name.edit`.",
        "",
        "| | " + " | ".join(COLUMNS) + " |",
        "|---" * (len(COLUMNS) + 1) + "|",
    ]
    for n in trace.numbers:
        out.append(f"| **{n}** | " + " | ".join(", ".join(trace.cells[n][c]) for c in COLUMNS) + " |")
    return "\n".join(out) + "\n"


def main():
    trace = Trace()
    for collect in (declared, edited, coded, tested, called):
        collect(trace)
    for n in trace.numbers:
        for column in OWN_NEEDS.get(n, NEEDS[n[0]]):
            if not trace.cells[n][column]:
                trace.faults.append(f"{n} has no {column}")
    made = page(trace)
    if sys.argv[1:] == ["--check"]:
        if not os.path.exists(PAGE) or antt.read("docs", "TRACE.md") != made:
            trace.faults.append("docs/TRACE.md is not what the tree says: run tools/trace.py")
    else:
        with open(PAGE, "w", encoding="utf-8") as f:
            f.write(made)
    for fault in trace.faults:
        print(f"trace: {fault}")
    if trace.faults:
        sys.exit(1)
    print(f"trace: {len(trace.numbers)} requirements, each with what it needs")


main()
