"""Holds what the C programs numbers.c and words.c wrote to the definitions and laws that the proofs use.

    numbers.py NUMBERS WORDS

NUMBERS and WORDS are files with what the two programs wrote. Limits and capacity are compared with the definitions of `blocks` and
`prefixes`, the sizes of records with the kinds of `records`, the sizes of forms with the proved statements of `demands`; the names of the refusals with the
numbers that `answers` gives them and with the header's constants; the version with CHANGELOG.md. The exit status is 1 if one differs.
"""

import glob
import os
import re
import sys

ROOT = os.path.join(os.path.dirname(os.path.abspath(__file__)), "../..")
FAULTS = []


def expect(what, got, due):
    """One comparison."""
    if got != due:
        FAULTS.append(f"{what}: {got}, not {due}")


def text_of(pattern):
    """The text of every file of a pattern below the root, one after the other."""
    parts = []
    for path in sorted(glob.glob(os.path.join(ROOT, pattern))):
        with open(path, encoding="utf-8") as f:
            parts.append(f.read())
    return "\n".join(parts)


def only(pattern, text):
    """The one match of a pattern in a text, as numbers."""
    found = re.findall(pattern, text, re.M)
    if len(found) != 1:
        sys.exit(f"numbers.py: {len(found)} times in the definitions: {pattern}")
    return [int(group) for group in ([found[0]] if isinstance(found[0], str) else found[0])]


def sizes_due():
    """Each number that numbers.c writes, from the definitions and laws."""
    blocks, records = text_of("crates/blocks/specs/*.antt"), text_of("crates/records/specs/*.antt")
    laws = text_of("crates/demands/specs/Bytes.antt")
    (range_words, ranges), (entry_words, entries) = only(r"^set_layout = layout (\d+) (\d+)$", blocks), only(r"^map_layout = layout (\d+) (\d+)$", blocks)
    if "\ncapacity l L = min ((L - 1) / l.width) l.limit\n" not in blocks:
        sys.exit("numbers.py: capacity is no longer defined as the header says")
    pairs = text_of("crates/prefixes/specs/Calls.antt")
    (pair_words,) = only(r"^pair_layout = layout (\d+) M$", pairs)
    (most,) = only(r"^most = (\d+)$", text_of("crates/tilings/specs/Prefixes.antt"))
    body = {int(kind, 16): int(size) for kind, size in re.findall(r"\(eqb kind (0x\w\w)\) \(some (\d+)\)", records)}
    record = {kind: 5 + size for kind, size in body.items()}  # the mark, the kind and the check are five bytes
    set_form = only(r"read_set_call b out ≡ leaves w → length b ≡ (\d+) \+ (\d+) \* get_or w 0 0\)$", laws)
    map_form = only(r"read_map_call b out ≡ leaves w → length b ≡ (\d+) \+ (\d+) \* get_or w 0 0\)$", laws)
    bulletin = only(r"read_bulletin_call .* → length b ≡ (\d+) \+ (\d+) \* \(get_or r 0 0 \+ get_or w 0 0\)\)$", laws)
    signed_form = only(r"read_signed_call b out ≡ leaves w → length b ≡ (\d+) \+ (\d+) \* get_or w 0 0\)$", laws)
    expect("the records of the laws", [*set_form, *map_form, *bulletin], [record[k] for k in (0x01, 0x10, 0x02, 0x11, 0x03, 0x12)])
    expect("released and withdrawn ranges", record[0x12], record[0x13])
    expect("the form of a signed set, which the header measures as a set's", [*signed_form, record[0x04], record[0x14]], set_form * 2)
    return {
        "MOST_RANGES": ranges,
        "MOST_ENTRIES": entries,
        "MOST_PREFIXES": most,
        "SET_WORDS(1000)": 1 + range_words * 1000,
        "MAP_WORDS(1000)": 1 + entry_words * 1000,
        "PREFIX_WORDS(1000)": 1 + pair_words * 1000,
        "PREFIX_WORDS_OF(1000)": 1 + pair_words * most * 1000,
        "SET_CAPACITY(100)": min((100 - 1) // range_words, ranges),
        "MAP_CAPACITY(100)": min((100 - 1) // entry_words, entries),
        "SET_CAPACITY(100000)": ranges,
        "MAP_CAPACITY(100000)": entries,
        "PREFIX_CAPACITY(100000)": (100000 - 1) // pair_words,
        "SET_START_BYTES": record[0x01],
        "MAP_START_BYTES": record[0x02],
        "BULLETIN_START_BYTES": record[0x03],
        "RANGE_BYTES": record[0x10],
        "ENTRY_BYTES": record[0x11],
        "SET_BYTES(1000)": set_form[0] + set_form[1] * 1000,
        "MAP_BYTES(1000)": map_form[0] + map_form[1] * 1000,
        "BULLETIN_BYTES(1000, 100)": bulletin[0] + bulletin[1] * 1100,
    }


def check_numbers(written):
    """The macros, and the version."""
    lines = dict(re.findall(r"^WIMBLORQUE_(.*) (\S+)$", written, re.M))
    version = lines.pop("VERSION")
    expect("the macros", {name: int(value) for name, value in lines.items()}, sizes_due())
    latest = re.search(r"^## (\d+\.\d+\.\d+)", text_of("CHANGELOG.md"), re.M)
    expect("the version of CHANGELOG.md", latest and latest.group(1), version)
    return len(lines)


def check_words(written):
    """The refusals: names, sentences, and the header's constants."""
    numbers = {int(n): name for name, n in re.findall(r"^number_of (\w+) = (\d+)$", text_of("crates/answers/specs/*.antt"), re.M)}
    due = {0: "Accepted"} | {16 + number: name for number, name in numbers.items()}
    said = {int(status): (name, sentence) for status, name, sentence in re.findall(r"^(\d+) (\w+): (.*)$", written, re.M)}
    names = {status: name for status, (name, _) in said.items() if name != "Unknown"}
    expect("the names of the refusals", names, due)
    constants = {int(n): name for name, n in re.findall(r"WIMBLORQUE_(\w+) = 16 \+ (\d+)\b", text_of("include/wimblorque.h"))}
    expect("the header's constants", constants, {n: re.sub(r"(?<=.)(?=[A-Z])", "_", name).upper() for n, name in numbers.items()})
    sentences = [sentence for status, (_, sentence) in said.items() if status in due]
    expect("different sentences", len(set(sentences)), len(due))
    for sentence in sentences:
        expect("a sentence ends", sentence[-1:], ".")
    return len(due)


def main():
    """The test."""
    with open(sys.argv[1], encoding="ascii") as numbers, open(sys.argv[2], encoding="ascii") as words:
        macros, refusals = check_numbers(numbers.read()), check_words(words.read())
    for fault in FAULTS:
        print("edge:", fault, file=sys.stderr)
    if not FAULTS:
        print(f"edge: {macros} sizes and limits are those of the definitions and laws; {refusals} statuses have their names and sentences")
    return 1 if FAULTS else 0


if __name__ == "__main__":
    sys.exit(main())
