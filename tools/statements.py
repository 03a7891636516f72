#!/usr/bin/env python3
"""Writes docs/STATEMENTS.md: every definition and every theorem that must be believed, with the comment above it and no proof, and the
contract of every call that a user is given. With --check, says whether the page that is there is the one that it would write. The page
ends with how many lines a reader has to believe."""
import os
import re
import sys

sys.path.insert(0, os.path.dirname(os.path.abspath(__file__)))
import antt  # noqa: E402
import check_calls  # noqa: E402

PAGE = os.path.join(antt.ROOT, "docs", "STATEMENTS.md")

READING = """# Statements

Made by `tools/statements.py`; do not edit. What a reader has to believe, and nothing else: the theorems, the contracts of the calls, and the definitions that both are said in. The prover checks the rest.

## How to read the notation

- `name : A → B → C` declares something that takes an A and a B and gives a C; the lines below it, `name x y = ..`, say what. Application is written without parentheses: `member es x` is `member` of `es` and `x`. A theorem is declared in the same way: it takes what is supposed and gives what follows, so `(x : ℕ) → x ≤ M → P x` reads 'for every number x, if x is at most M, then P of x'.
- `×` is 'and', `⊎` is 'or', `P → ⊥` is 'not P', `≡` is 'equals'. `ℕ` are the whole numbers from 0 on, without end; `+`, `*` do not wrap; `m - n` is 0 where n is the larger; `/` rounds down, `m % n` is the remainder, `m ^ n` the power.
- `[]` is the empty list, `x ∷ xs` is x and then the list xs, `xs ++ ys` the one after the other. `length`, `take n`, `drop n` are as usual; `get_or w i 0` is element i of w, counted from 0, and 0 past its end; `set w i x` is w with x for element i; `replicate n x` is x, n times.
- `none` and `some v` are nothing and the value v. `true`, `false`, `not`, `andb`, `orb` are truth values and what is computed with them; `leb m n`, `ltb m n`, `eqb m n` are the tests ≤, <, =, as truth values; `pick t a b` is a if t is true, and else b. `bit_xor m n` is their exclusive or: the number whose binary digits are 1 where those of m and n differ.
- `ℤ` are the whole numbers below 0 too: `pos n` is n and `negsuc n` is -(n + 1); `+ℤ`, `-ℤ` do not wrap; `le_z k l`, `lt_z k l` are the tests ≤ and <, as truth values; `mag k` is n for n and for -(n + 1); `cond t a b` is `pick t a b`.
- `record R .. where` lists what an R has; `r.field` is that part of r. Of a record that is a statement, each field is one thing that it says.
- `λ x. e` is the function that gives e for x. `Unit` has the one value `tt`: as a statement it says nothing, and a function of it is something that is computed only where it is asked for.
- In a contract `block.old` is the list of words lent as `block` when the call begins and `block.new` what it is afterwards, and `block.now` those of a block that is lent to be read; `result` is the answer. `judged_says result`, `truth_says result`, .. give the answer's numbers in the table's terms. `block.entry` is the loan itself, of which a part is a part.
- Two definitions are long and need not be read: `build`, which computes the list of a function (`built` and `canonical` say that it is the one sound list that names exactly that function), and `put`, which is `build` for a change of a..b.
"""

# The pages' parts: a heading, and the files whose public declarations it holds, the most important first.
PARTS = [
    ("The theorems", "what the calls promise, said of their outcomes", [("demands", "specs")]),
    ("Answers and outcomes", "refusals in their order, and what an answer says", [("answers", "specs")]),
    ("The calls", "what each call answers and leaves", [(c, "specs") for c in
        ("sets", "fits", "prefixes", "maps", "bulletins", "forms", "told", "host", "edits", "searches", "operations")]),
    ("Blocks of words", "what words say", [("blocks", "specs")]),
    ("Bytes", "forms, runs, records, the two checks, numbers", [(c, "specs") for c in ("verdicts", "runs", "records", "checks", "numbers")]),
    ("Lists of entries", "what a list names", [("entries", "specs")]),
    ("Signed keys", "the words that stand for them", [("keys", "specs")]),
    ("Prefix blocks", "those of a set, by both methods", [("tilings", "specs")]),
]
# What the code promises itself; no theorem and no contract of a user's call names it.
INNER = {"Steps"}
# Two laws that stand for a definition that need not be read, with what the first supposes; and the laws by which an outcome is the only
# one: of each kind of answer, of a part, of what C is told.
BUILD = [("entries", "Cuts", "NotIn"), ("entries", "Cuts", "Changes"), ("entries", "Building", "Ends"), ("entries", "Building", "built"), ("entries", "Canon", "canonical")]
ONLY = [("answers", "Unique", kind + "_only") for kind in ("judged", "truth", "found", "ranged", "sized", "parted", "decided", "placed", "written")] + [
    ("answers", "UniqueKeys", kind + "_only") for kind in ("found_key", "ranged_keys", "placed_key")] + [
    ("forms", "Unique", "form_read_only"),
    ("searches", "Windows", "part_only"),
    ("told", "Telling", "told_only"),
    ("told", "Telling", "values_told"),
    ("told", "Telling", "tells_keys"),
    ("told", "Telling", "twos_told"),
]
# The structs and enums of the code that definitions and contracts name.
NAMED = [
    ("answers", ("Reason", "Refusal", "UnknownNumber", "Seated", "Part", "Deciding")),
    ("blocks", ("Layout",)),
    ("verdicts", ("Form",)),
    ("told", ("Told",)),
]


def contracts(crate):
    """The public functions, methods and conversions of a crate that users are given: comment, signature and contract."""
    for source, types in check_calls.sources(crate):
        for m in re.finditer(r'((?:^//[^\n]*\n)*)(?:^#\[[^\n]*\]\n)*^(pub (?:extern "C" )?fn .*?)\n\{', source, re.M | re.S):
            yield told(m.group(1)), m.group(2).splitlines()
        for m in re.finditer(r"((?:^//[^\n]*\n)*)^(impl ((?:Try)?From<\w+> for )?(\w+) \{\n)(.*?)^\}", source, re.M | re.S):
            if m.group(3) or m.group(4) in types:
                yield from methods(m.group(1), m.group(2), m.group(5), "(?:pub )?" if m.group(3) else "pub ")


def methods(comment, head, body, public):
    """The functions of a block of methods or of a conversion: comment, and the block's head with the signature and contract."""
    for m in re.finditer(r"((?:^    //[^\n]*\n)*)^((?:    ghost [^\n]*\n\n)?    " + public + r"fn .*?)(?: \{\n|\n    \{)", body, re.M | re.S):
        yield told(comment + m.group(1)), (head + m.group(2)).replace("\n\n", "\n").splitlines()


def told(comment):
    """A comment's text."""
    return " ".join(line.strip()[2:].strip() for line in comment.splitlines())


def entry(comment, lines):
    shown = [comment, ""] if comment else []
    return shown + ["```", *lines, "```", ""], len(lines)


def structs(crate, names):
    """The structs and enums of a crate's code by these names: comment and declaration."""
    text = antt.read("crates", crate, "src", "lib.rt")
    for name in names:
        m = re.search(r"((?:^//[^\n]*\n)*)(?:^#\[[^\n]*\]\n)*^(pub (?:struct|enum) " + name + r"(?: \{\n.*?^\}|\([^)]*\);))", text, re.M | re.S)
        yield " ".join(line[2:].strip() for line in m.group(1).splitlines()), m.group(2).splitlines()


def laws(wanted):
    """The statements, without proofs, of laws by crate, file and name."""
    for crate, module, name in wanted:
        item = next(i for i in antt.items(os.path.join("crates", crate, "proofs", module + ".antt")) if i.name == name)
        yield item.comment, item.lines if name[0].isupper() else item.statement()


def files(crate, kind):
    folder = os.path.join(antt.ROOT, "crates", crate, kind)
    if not os.path.isdir(folder):
        return []
    return [(module, path) for owner, module, path in antt.antt_files(kind) if owner == crate and module not in INNER]


def page():
    out, counts = [READING], {}
    for heading, words, wanted in PARTS:
        out += [f"## {heading}: {words}", ""]
        counts[heading] = 0
        for crate, kind in wanted:
            for module, path in files(crate, kind):
                out += [f"### `{crate}`, {module}", ""]
                for item in antt.items(path):
                    text, n = entry(item.comment, item.lines)
                    out += text
                    counts[heading] += n
    for heading, part, found in (
        ("### Two laws that stand for `build`", "Lists of entries", laws(BUILD)),
        ("## One outcome: no second one satisfies a contract", "One outcome", laws(ONLY)),
        ("## Structs and enums that definitions and contracts name", "Structs and enums", (s for crate, names in NAMED for s in structs(crate, names))),
    ):
        out += [heading, ""]
        counts.setdefault(part, 0)
        for comment, lines in found:
            text, n = entry(comment, lines)
            out += text
            counts[part] += n
    out += ["## The contracts: of the calls that users are given", ""]
    counts["The contracts"] = 0
    for crate in re.findall(r"^## `(\w+)`", antt.read("docs", "CALLS.md"), re.M):
        out += [f"### `{crate}`", ""]
        for comment, lines in contracts(crate):
            text, n = entry(comment, lines)
            out += text
            counts["The contracts"] += n
    out += ["## How much there is to believe", "", "| part | lines |", "|---|---|"]
    out += [f"| {k} | {n} |" for k, n in counts.items()] + [f"| together | {sum(counts.values())} |", ""]
    return "\n".join(out)


def unread():
    """Definitions to be believed that would not stand on the page: what specs/ takes from proofs/ or from a file of inner promises."""
    for crate, module, path in antt.antt_files("specs"):
        for line in antt.read(path).splitlines():
            taken = re.match(r"(?:pub )?use Rattle\.(?!std\.)\w+\.(proofs|specs)\.(\w+)", line)
            if taken and (taken.group(1) == "proofs" or taken.group(2) in INNER) and module not in INNER and crate != "sweeps":
                yield f"{path}: {line}"


def main():
    faults = list(unread())
    if faults:
        sys.exit("statements: a definition that must be believed stands outside of what is shown:\n" + "\n".join(faults))
    made = page()
    if sys.argv[1:] == ["--check"]:
        if not os.path.exists(PAGE) or antt.read("docs", "STATEMENTS.md") != made:
            sys.exit("statements: docs/STATEMENTS.md is not what the crates say: run tools/statements.py")
        print("statements: docs/STATEMENTS.md is what the crates say")
        return
    with open(PAGE, "w", encoding="utf-8") as f:
        f.write(made)


main()
