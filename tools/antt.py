"""Reads antt, Rattle and edit files as far as the documents' scripts need it: what is declared, the comment above it, and the numbers
of docs/REQUIREMENTS.md that the comment names in square brackets, as in '-- [S1, R17] ..'."""
import os
import re

ROOT = os.path.dirname(os.path.dirname(os.path.abspath(__file__)))
NUMBER = r"(?:[A-Z][0-9]+|N-[A-Z])"
TAG = re.compile(r"\[(" + NUMBER + r"(?:, " + NUMBER + r")*)\]")
DECLARED = re.compile(r"^(?P<indent> *)(?:(?:abbrev|unfoldable) )?pub (?:(?:record|data) )?(?P<name>[^\s:({]+)")


def read(*parts):
    with open(os.path.join(ROOT, *parts), encoding="utf-8") as f:
        return f.read()


def requirements():
    """The numbers of the requirements, in their order."""
    return re.findall(r"^(?:- |\| )\*\*(" + NUMBER + r")\*?\*\*", read("docs", "REQUIREMENTS.md"), re.M)


def tags(comment):
    """The numbers that a comment names."""
    return [n for group in TAG.findall(comment) for n in group.split(", ")]


def antt_files(kind):
    """Each antt file of a kind ('specs' or 'proofs') that declares by subject: its crate, its module's name and its path."""
    for crate in sorted(os.listdir(os.path.join(ROOT, "crates"))):
        folder = os.path.join("crates", crate, kind)
        if os.path.isdir(os.path.join(ROOT, folder)):
            for name in sorted(os.listdir(os.path.join(ROOT, folder))):
                if name.endswith(".antt") and name != "Lib.antt":
                    yield crate, name[:-5], os.path.join(folder, name)


class Item:
    """A public declaration: its name, the comment above it, and its lines."""

    def __init__(self, name, comment, lines):
        self.name, self.comment, self.lines = name, comment, lines

    def statement(self):
        """What is declared, without a proof: the lines up to the first that begins with the name and is no signature."""
        for i, line in enumerate(self.lines[1:], 1):
            if re.match(r"\s*(?:unfolding |" + re.escape(self.name) + r"(?: |$))", line):
                return self.lines[:i]
        return self.lines


def items(path):
    """The public declarations of a file, in order. A comment belongs to the declaration right below it."""
    comment, lines, current, found = [], read(path).splitlines(), None, []
    for line in lines:
        text = line.strip()
        if text.startswith("--"):
            if current is not None:
                comment, current = [], None
            comment.append(text[2:].strip())
        elif not text:
            comment, current = [], None
        else:
            declared = DECLARED.match(line)
            if declared and (current is None or len(declared.group("indent")) <= current[1]):
                current = (Item(declared.group("name"), " ".join(comment), [line]), len(declared.group("indent")))
                found.append(current[0])
                comment = []
            elif current is not None:
                current[0].lines.append(line)
    return found
