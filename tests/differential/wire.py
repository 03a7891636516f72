"""Cases, their way to the driver and back, and the comparison with the model."""

import json
import struct
import subprocess
from array import array
from dataclasses import dataclass, field

import model

WHAT = {"i": 0, "c": 1, "o": 1, "b": 2, "w": 3}


@dataclass
class Case:
    """One call: what is lent, in the header's order, the arguments, and how the memory lies.

    `same[i]` is 0, or the number (from 1) of the earlier lent block whose memory this one is. `placement` 0 puts the end of each lent
    part at the end of what may be touched, 1 its beginning at the beginning.
    """

    name: str
    lent: list
    args: list = field(default_factory=list)
    same: list = None
    placement: int = 0

    def __post_init__(self):
        self.same = self.same or [0] * len(self.lent)

    def text(self):
        """The case as JSON, for --replay."""
        lent = [part.hex() if isinstance(part, (bytes, bytearray)) else list(part) for part in self.lent]
        return json.dumps({"call": self.name, "lent": lent, "args": self.args, "same": self.same, "placement": self.placement})


def case_of(text):
    """The case that `text` gave."""
    said = json.loads(text)
    lent = [bytes.fromhex(part) if isinstance(part, str) else part for part in said["lent"]]
    return Case(said["call"], lent, said["args"], said["same"], said["placement"])


def packed(part):
    """A block's words or a buffer's bytes, as they travel."""
    return bytes(part) if isinstance(part, (bytes, bytearray)) else array("Q", part).tobytes()


def encoded(case):
    """A case as the driver reads it; a key travels in two's complement."""
    parts = [struct.pack("<4Q", model.NUMBER[case.name], len(case.lent), len(case.args), case.placement)]
    for letter, part, same in zip(model.LENT[case.name], case.lent, case.same):
        parts.append(struct.pack("<3Q", WHAT[letter], same, len(part)))
        if same == 0:
            parts.append(packed(part))
    parts.append(array("Q", [arg % 2**64 for arg in case.args]).tobytes())
    return b"".join(parts)


def outcome_size(case):
    """How many bytes the driver writes for a case."""
    return 56 + sum(len(part) * (1 if isinstance(part, (bytes, bytearray)) else 8) for part in case.lent)


def expected(outcome):
    """The model's outcome as the driver would write it."""
    status, answer, after = outcome
    return struct.pack("<7Q", status, *(answer or (0, 0, 0, 0, 0)), 0) + b"".join(packed(part) for part in after)


def decoded(case, data):
    """A driver's outcome, to be read by people."""
    if len(data) < outcome_size(case):
        return "the program ended in this call (it touched memory that it was not lent, or wrote to an input), or did not end"
    status, *answer, beside = struct.unpack_from("<7Q", data)
    at, after = 56, []
    for part in case.lent:
        size = len(packed(part))
        piece = data[at : at + size]
        after.append(piece.hex() if isinstance(part, (bytes, bytearray)) else array("Q", piece).tolist())
        at += size
    return {"status": status, "answer": answer, "memory beside it written": beside, "after": after}


class Driver:
    """The C program that runs the calls."""

    def __init__(self, command):
        self.command = command

    def raw(self, cases, seconds):
        """What the program writes for the cases; short if it ended in one of them, nothing if it took too long."""
        try:
            data = b"".join(map(encoded, cases))
            return subprocess.run(self.command, input=data, stdout=subprocess.PIPE, timeout=seconds, check=False).stdout
        except subprocess.TimeoutExpired:
            return b""

    def outcomes(self, cases):
        """The outcome of each case, as bytes. If the program ends in one of them, each is run by itself as it is asked for."""
        data, at = self.raw(cases, 120), 0
        whole = len(data) == sum(map(outcome_size, cases))
        for case in cases:
            yield data[at : at + outcome_size(case)] if whole else self.raw([case], 20)
            at += outcome_size(case)


def mismatches(driver, cases, outcomes):
    """Each case whose outcome is not the model's, with both."""
    for case, outcome, got in zip(cases, outcomes, driver.outcomes(cases)):
        if len(got) != outcome_size(case) or got != expected(outcome):
            yield case, outcome, decoded(case, got)


def report(case, outcome, got, file):
    """Prints a mismatch in full and keeps it for --replay."""
    status, answer, after = outcome
    after = [part.hex() if isinstance(part, (bytes, bytearray)) else part for part in after]
    print(f"MISMATCH in wimblorque_{case.name}; the case (kept in {file}, for --replay):")
    print(case.text())
    print("the model:  ", {"status": status, "answer": answer, "memory beside it written": 0, "after": after})
    print("the library:", got)
    with open(file, "w", encoding="ascii") as kept:
        kept.write(case.text() + "\n")
