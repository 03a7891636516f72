#!/usr/bin/env python3
"""Makes the byte forms of the worked numbers from nothing, the new check by Python's own CRC (binascii.crc_hqx), the old one by Fletcher's two
sums, and holds what stands in the tree against them: the forms of the proved table and of every other table of proofs, the bytes of
docs/REQUIREMENTS.md, the arrays of the C tests, the examples, and the inputs of the programs that are run. It knows nothing of the library
and nothing of the model. It fails where a byte differs or a name is missing.

    tools/vectors.py            compares
    tools/vectors.py --write    first writes the inputs of the programs, crates/show and crates/inputs, and what they must print
"""
import binascii
import glob
import importlib.util
import os
import re
import sys

ROOT = os.path.dirname(os.path.dirname(os.path.abspath(__file__)))
OLD, NEW = b"\xc5\x3a", b"\xc5\x3b"
M = 2**64 - 1
BODY = {0x01: 2, 0x02: 2, 0x03: 4, 0x04: 2, 0x10: 16, 0x11: 24, 0x12: 16, 0x13: 16, 0x14: 16}

TABLE = "crates/demands/proofs/Table.antt"
# What the table must have, by name: the mark of the form, and what it is the form of.
NEEDED = {"H": (OLD, "H"), "I": (OLD, "I"), "Hnew": (NEW, "H"), "Inew": (NEW, "I")}
NEEDED |= {"only_zero": (OLD, "only_zero"), "whole_line": (OLD, "whole_line"), "only_zero_new": (NEW, "only_zero"), "whole_line_new": (NEW, "whole_line")}
# Lists of bytes whose records are wrong on purpose: their checks, or marks that are mixed.
WRONG_ON_PURPOSE = set()


def fletcher(data):
    a = b = 0
    for byte in data:
        a = (a + byte) % 255
        b = (b + a) % 255
    return bytes([b, a])


def crc(data):
    return binascii.crc_hqx(data, 0xFFFF).to_bytes(2, "big")


def check_of(mark, data):
    return {OLD: fletcher, NEW: crc}[mark](data)


def record(mark, kind, numbers, size):
    data = bytes([kind]) + b"".join((n % 2 ** (8 * size)).to_bytes(size, "big") for n in numbers)
    return mark + data + check_of(mark, data)


def form(mark, start, *runs):
    """The form with this start of runs, each a kind and its items."""
    counts = record(mark, start, [len(items) for _, items in runs], 2)
    return counts + b"".join(record(mark, kind, item, 8) for kind, items in runs for item in items)


def set_form(mark, *ranges):
    return form(mark, 0x01, (0x10, ranges))


def signed_form(mark, *ranges):
    return form(mark, 0x04, (0x14, ranges))


# What the forms of the tables of proofs are the forms of, by name. A name may end in 'new' or 'old'; the form has the mark that it has.
CONTENT = {
    "H": lambda mark: set_form(mark, (5, 9)),
    "I": set_form,
    "case_h": lambda mark: set_form(mark, (5, 9)),
    "case_i": set_form,
    "one_entry": lambda mark: form(mark, 0x02, (0x11, [(0, 9, 1)])),
    "one_each": lambda mark: form(mark, 0x03, (0x12, [(1, 4)]), (0x13, [(9, 9)])),
    "key_bytes": lambda mark: signed_form(mark, (-5, 3)),
    "all_but_one": lambda mark: signed_form(mark, (-(2**63), -2), (0, 2**63 - 1)),
    "by_their_bytes": lambda mark: signed_form(mark, (3, 3), (-5, -1)),
    "touching_keys": lambda mark: signed_form(mark, (-5, -1), (0, 3)),
    "only_zero": lambda mark: set_form(mark, (0, 0)),
    "whole_line": lambda mark: set_form(mark, (0, M)),
}

# The inputs of the program, with what it must print for each.
MOST = [(10 * i, 10 * i + 3) for i in range(3119)] + [(M - 5, M)]
OLD_H, NEW_H = set_form(OLD, (5, 9)), set_form(NEW, (5, 9))
INPUTS = {
    "one_range": (NEW_H, "ranges 1\n5 9\n"),
    "damaged": (NEW_H[:-1] + b"\x09", "refused 11 at 7\n"),
    "old_range": (OLD_H, "ranges 1\n5 9\n"),
    "old_damaged": (OLD_H[:-1] + b"\x1f", "refused 11 at 7\n"),
    "mixed": (OLD_H[:7] + NEW_H[7:], "refused 9 at 7\n"),
    "mixed_back": (NEW_H[:7] + OLD_H[7:], "refused 9 at 7\n"),
    "nothing": (b"", "refused 8 at 0\n"),
    "empty": (set_form(NEW), "ranges 0\n"),
    "most": (set_form(NEW, *MOST), "ranges 3120\n" + "".join(f"{low} {high}\n" for low, high in MOST)),
    "trailing": (set_form(NEW, *MOST) + bytes(9), "refused 13 at 65527\n"),
    "too_long": (set_form(NEW, *MOST) + bytes(10), "input too long\n"),
    "byte_after": (NEW_H + b"x", "refused 13 at 28\n"),
    "map": (form(NEW, 0x02, (0x11, [(0, 9, 1)])), "refused 10 at 0\n"),
}
FILES = {
    "crates/show/stdin": NEW_H,
    "crates/show/stdout": b"ranges 1\n5 9\n",
    "crates/inputs/args": "".join(name + "\n" for name in INPUTS).encode(),
    "crates/inputs/stdout": "".join(f"{name}\n{printed}" for name, (_, printed) in INPUTS.items()).encode(),
}
FILES |= {f"crates/inputs/data/{name}": data for name, (data, _) in INPUTS.items()}


def read(path):
    """What stands in a file; nothing, where there is none."""
    if not os.path.exists(os.path.join(ROOT, path)):
        return b""
    with open(os.path.join(ROOT, path), "rb") as f:
        return f.read()


class Forms:
    """What was compared, and what was found wrong."""

    def __init__(self):
        self.compared, self.faults = 0, []

    def same(self, what, got, due):
        self.compared += 1
        if got != due:
            self.faults.append(f"{what}: {short(got)}, and it should be {short(due)}")

    def records(self, what, data):
        """Every record of a form has one mark, a known kind and the check of its mark, and the bytes end with a record."""
        at = 0
        while at < len(data):
            piece = data[at : at + 5 + BODY.get(data[at + 2], 0)] if at + 2 < len(data) else data[at:]
            if len(piece) < 7 or piece[2] not in BODY or piece[:2] not in (OLD, NEW) or piece[:2] != data[:2]:
                self.faults.append(f"{what}: no record of the first one's mark at byte {at}: {short(data[at:])}")
                return
            self.same(f"{what}, the check of the record at byte {at}", piece[-2:], check_of(piece[:2], piece[2:-2]))
            at += len(piece)


def short(data):
    text = data.hex(" ").upper() if isinstance(data, bytes) else str(data)
    return text if len(text) < 200 else text[:200] + " .."


def tables(found):
    """Every list of bytes of the proofs that begins with C5: by its name where that is known, and record by record."""
    names = set()
    for path in sorted(glob.glob("crates/*/proofs/**/*.antt", root_dir=ROOT, recursive=True)):
        for name, text in re.findall(r"^ *([^\s=]+) =\s+(0xC5\b.*?)(?=\n\s*\n|\n\S|\Z)", read(path).decode(), re.M | re.S):
            numbers = re.split(r"\s*∷\s*", text.strip())
            if numbers[-1] != "[]" or not all(re.fullmatch(r"0x[0-9A-F]+|\d+", n) for n in numbers[:-1]):
                found.faults.append(f"{path}: {name} begins with 0xC5 and is no plain list of bytes")
                continue
            data = bytes(int(n, 0) for n in numbers[:-1])
            names |= {name} if path == TABLE else set()
            if name in WRONG_ON_PURPOSE:
                continue
            found.records(f"{path}: {name}", data)
            base = re.sub(r"_?(?:new|old)$", "", name)
            if base in CONTENT and data[:2] in (OLD, NEW):
                mark, what = NEEDED[name] if path == TABLE and name in NEEDED else (data[:2], base)
                found.same(f"{path}: {name}", data, CONTENT[what](mark))
    found.faults += [f"{TABLE}: there is no {name}" for name in NEEDED if name not in names]


def arrays(found):
    """Every array of bytes of the C tests and examples that begins with C5."""
    for path in sorted(glob.glob("tests/**/*.c", root_dir=ROOT, recursive=True) + glob.glob("examples/*.c", root_dir=ROOT)):
        for name, text in re.findall(r"(\w+)\[\d*\] = \{(0xC5\b[^}]*)\}", read(path).decode()):
            found.records(f"{path}: {name}", bytes(int(n, 0) for n in text.replace("\n", " ").split(",") if n.strip()))


def documents(found):
    """The bytes of the worked numbers in the requirements, new and then old, and the published checks."""
    text = read("docs/REQUIREMENTS.md").decode()
    checks = [record(mark, 0x10, (0, high), 8)[-2:] for mark in (OLD, NEW) for high in (0, M)]
    due = {"H": NEW_H + OLD_H, "I": set_form(NEW) + set_form(OLD), "O": checks[0] + checks[2] + checks[3]}
    found.same("the old checks of case O", checks[0], checks[1])
    for letter, data in due.items():
        line = re.search(rf"^- \*\*N-{letter}\*?\*\* (.*)$", text, re.M).group(1).replace("seven 00", "00 " * 7)
        found.same(f"docs/REQUIREMENTS.md: N-{letter}", bytes.fromhex("".join(re.findall(r"\b[0-9A-F]{2}\b", line))), data)
        print(f"vectors: {letter}: {short(data)}")
    for quoted, mark in (("abcde", OLD), ("123456789", NEW)):
        said = re.search(rf'"{quoted}" gives ([0-9A-F]{{2}} [0-9A-F]{{2}})\b', text)
        found.same(f'docs/REQUIREMENTS.md: "{quoted}"', bytes.fromhex(said.group(1)) if said else None, check_of(mark, quoted.encode()))


def files(found):
    """The inputs of the programs, no more and no fewer; and the examples, which examples/make.py makes by itself."""
    for path, data in FILES.items():
        found.same(path, read(path), data)
    found.same("the names in crates/inputs/data", sorted(os.listdir(os.path.join(ROOT, "crates/inputs/data"))), sorted(INPUTS))
    spec = importlib.util.spec_from_file_location("make", os.path.join(ROOT, "examples/make.py"))
    make = importlib.util.module_from_spec(spec)
    spec.loader.exec_module(make)
    for name, data in make.FILES.items():
        found.same(f"examples/{name}", read(f"examples/{name}"), data)
        if not name.startswith("damaged"):
            found.records(f"examples/{name}", data)


def main():
    if sys.argv[1:] == ["--write"]:
        for path, data in FILES.items():
            with open(os.path.join(ROOT, path), "wb") as f:
                f.write(data)
    found = Forms()
    for look in (tables, arrays, documents, files):
        look(found)
    for fault in found.faults:
        print("vectors:", fault)
    if found.faults:
        sys.exit(1)
    print(f"vectors: {found.compared} comparisons of bytes with forms that were made from nothing, all alike")


main()
