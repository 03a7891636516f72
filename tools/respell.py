#!/usr/bin/env python3
"""Brings the repository's own definitions and lemmas to one spelling: words in snake case, a capital only where a type or a fact begins.

usage: tools/respell.py [ROOT]

    entriesOf, whollyBelow, at-least-one, orElse-assoc  ->  entries_of, wholly_below, at_least_one, or_else_assoc

It runs once, on what port.py wrote. Names of functions, of what Rattle makes for proofs and of the library stay. Where a name of a file
becomes a word that stands there already, a line 'beside:' says so. The edits of must-fail/ and the pages are turned by the same table.
"""

import collections
import os
import re
import sys

WORD = re.compile(r"[^\s(){}.;,:@\"«»\[\]\\`|/]+")
DECLARED = re.compile(
    r"^(?:abbrev |unfoldable |pub |open )*(?P<name>[^\s:(){};,|.@\"]+) :(?= |$)", re.M
)
FIELD = re.compile(r"^\s+(?:pub |open )*(?P<name>[^\s:(){};,|.@\"]+) :(?= |$)", re.M)
LET = re.compile(r"\blet (?P<name>[^\s:(){};,|.@\"]+) [:=]")
IMPORT = re.compile(r"^(?:ghost |pub )*use (?P<path>[^\s{;]+)\.\{(?P<names>[^}]*)\}", re.M)
MADE = re.compile(r"^(invariant|decreases|Need|In|After|At|Then|Else)-")
OPERATOR = re.compile(r"◌")


def snake(name):
    """The name in snake case, or None where it stays."""
    if MADE.match(name) or OPERATOR.search(name) or not re.match(r"[a-z]", name):
        return None
    if not re.fullmatch(r"[A-Za-z0-9_\-'₀-₉≢≡]+", name) or name.startswith("-") or name.endswith("-"):
        return None
    new = re.sub(r"(?<=[a-z0-9])(?=[A-Z])", "_", name)
    new = re.sub(r"-+", "_", new).lower()
    new = re.sub(r"_+", "_", new)
    return new if new != name else None


def files(root, *endings):
    for folder, dirs, names in os.walk(root):
        dirs[:] = sorted(d for d in dirs if d not in ("out", ".git", "build", "target"))
        for name in sorted(names):
            if name.endswith(endings):
                yield os.path.join(folder, name)


def read(path):
    with open(path, encoding="utf-8") as it:
        return it.read()


def write(path, text):
    with open(path, "w", encoding="utf-8") as it:
        it.write(text)


def own_names(crates):
    """Each name that the files of specs/ and proofs/ declare, with the files; and those that are fields."""
    names, fields = collections.defaultdict(set), set()
    for path in files(crates, ".antt"):
        text = read(path)
        for it in DECLARED.finditer(text):
            names[it["name"]].add(path)
        for it in FIELD.finditer(text):
            names[it["name"]].add(path)
            fields.add(it["name"])
        for it in LET.finditer(text):
            names[it["name"]].add(path)
    return names, fields


def imported(text, crates):
    """The names that a file takes from the library."""
    taken = set()
    for it in IMPORT.finditer(text):
        part = it["path"].split(".")
        if not (part[0] == "Rattle" and len(part) > 1 and part[1] in crates):
            taken |= {n.split(" as ")[-1].strip() for n in it["names"].split(",")}
            taken |= {n.split(" as ")[0].strip() for n in it["names"].split(",")}
    return taken


def turned(text, table, fields, kept):
    def word(it):
        name = it.group()
        if name in kept or name not in table:
            return name
        if it.start() and it.string[it.start() - 1] == "." and name not in fields:
            return name
        return table[name]

    def line(it):
        if not it.lstrip().startswith(("--", "//")):
            return WORD.sub(word, it)
        it = re.sub(r"`[^`]+`", lambda q: WORD.sub(word, q.group()), it)
        return re.sub(r"(?<![\w-])[a-z]+[A-Z]\w*(?![\w-])", lambda q: table.get(q.group(), q.group()), it)

    return "\n".join(line(it) for it in text.split("\n"))


def together(table, names):
    """The pairs of names that become one."""
    by_new = collections.defaultdict(set)
    for name in names:
        by_new[table.get(name, name)].add(name)
    return {new: olds for new, olds in by_new.items() if len(olds) > 1}


# Where a name would become another's: (name, the crate or None for all) and what it becomes.
ASIDE = {
    ("of-set", "demands"): "is_set",
    ("of_map", "demands"): "is_map",
    ("of-map", "demands"): "is_map",
    ("of-bulletin", "demands"): "is_bulletin",
    ("of-signed", "demands"): "is_signed",
    ("count_held", "demands"): "count_held_lem",
    ("held_in", "demands"): "held_in_lem",
    ("one_number", "demands"): "one_number_lem",
}


# Names of two cases that no declaration shows: of modules that an import renames, and of variables.
LOCAL = {
    "foundKey": "found_key",
    "placedKey": "placed_key",
    "rangedKeys": "ranged_keys",
    "judgedBy": "judged_by",
    "bytesIn": "bytes_in",
    "outR": "out_r",
    "outW": "out_w",
}

# 'result' is what a function returns, in a clause: the definition of that name, of the sweeps, steps aside.
RESULT = re.compile(r"use Rattle\.sweeps\.specs\.Sweeps\.\{[^}]*\bresult\b(?!_)|^unfoldable pub result :", re.M)


def swept(path, text):
    """The text with the definition 'result' under its new name, in the files that declare or import it."""
    if not RESULT.search(text):
        return text
    if path.endswith(".rt"):
        text = re.sub(r"(use Rattle\.sweeps\.specs\.Sweeps\.\{[^}]*?)\bresult\b(?!_)", r"\1sweep_result", text)
        return re.sub(r"(?<![\w.\-])result(?= table )", "sweep_result", text)
    return "\n".join(
        line if line.lstrip().startswith("--") else re.sub(r"(?<![\w.\-])result(?![\w\-'])", "sweep_result", line) for line in text.split("\n")
    )


def table_of(names):
    """What each name becomes. A lemma that would have its definition's name gets _lem."""
    table = {n: snake(n) for n in names if snake(n)}
    defined = {snake(n) or n for n in names if "-" not in n}
    for name, new in table.items():
        if "-" in name and new in defined:
            table[name] = new + "_lem"
    return table


def of_crate(table, path, top):
    crate = os.path.relpath(path, top).split(os.sep)[0]
    return table | LOCAL | {name: new for (name, where), new in ASIDE.items() if where in (None, crate)}


def clashes(text, table, kept):
    """The names of a file that another word of it already is."""
    words = set(WORD.findall(text))
    return sorted((w, table[w]) for w in words if w in table and w not in kept and table[w] in words and table[w] not in table)


def turn_crates(top, table, fields):
    crates, count = set(os.listdir(top)), 0
    for path in files(top, ".antt", ".rt"):
        text = read(path)
        here, kept = of_crate(table, path, top), imported(text, crates)
        for old, new in clashes(text, here, kept):
            print("beside:", path, old, new)
        new = swept(path, turned(text, here, fields, kept))
        if new != text:
            count += 1
            write(path, new)
    return count


def turn_pages(root, table, names):
    """The must-fail edits, and what the pages cite: words of two cases anywhere, words with a dash between backticks."""
    snaked = {table.get(n, n) for n in names}

    def word(name):
        return table.get(name) or (snake(name) if snake(name) in snaked and name not in names else None) or name

    def cited(text):
        return WORD.sub(lambda it: word(it.group()), text)

    for path in files(os.path.join(root, "crates"), ".edit"):
        lines = [cited(l) if l.startswith(("old:", "new:")) else l for l in read(path).splitlines(True)]
        write(path, "".join(lines))
    for path in files(root, ".md"):
        text = re.sub(r"`[^`\n]+`", lambda it: cited(it.group()), read(path))
        text = WORD.sub(lambda it: word(it.group()) if re.fullmatch(r"[a-z]+[A-Z]\w*", it.group()) else it.group(), text)
        write(path, text)


def main():
    root = sys.argv[1] if len(sys.argv) > 1 else "."
    top = os.path.join(root, "crates")
    names, fields = own_names(top)
    table = table_of(names)
    print(turn_crates(top, table, fields), "files,", len(table), "names")
    turn_pages(root, table, names)


main()
