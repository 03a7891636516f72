"""The damage test: byte forms with one byte changed, and cut at every length, through the calls that read them.

    damage.py DRIVER...

DRIVER... is the command of the C program of driver.c. Forms of up to 130 bytes get all 255 changes of each byte, longer ones some
changes of each. Every answer is compared with the model's. [C4] Every damaged form with the new mark must be refused, wherever the byte
is; [C6] of those with the old mark, every one but where a 00 became FF or an FF became 00 in a body, which count alike in the old check.
The exit status is 1 if one of this fails.
"""

import os
import random
import sys
import time
from collections import Counter

import generate
import model
import run
import shapes
import wire
from model import M, MAP, MAX, MIN, SET

SHORT = 130
BATCH = 4000
ENDS = [(0, 0), (0, M), (M, M), (255, 65535), (0xFF00FF00FF00FF00, 0xFF00FF00FF00FFFF), (1, 2), (0, 2**56 - 1)]


def set_lists(rng):
    """Sets of up to 5 ranges: with ends of many 00 and FF bytes, and any."""
    lists = [[]] + [[ends] for ends in ENDS]
    lists += [[(0, 0), (2, M - 2), (M, M)], [(0, 255), (65280, 2**32 - 1), (2**40, M)]]
    return lists + [shapes.fresh(rng, SET, n) for n in (1, 2, 3, 4, 5)]


def signed_lists(rng):
    """Signed sets of up to 4 ranges, in keys: at both ends of the line and around 0, where all bytes change from FF to 00, and any."""
    lists = [[], [(MIN, MIN)], [(MAX, MAX)], [(MIN, MAX)], [(-1, 0)], [(-5, 3)], [(0, 255)], [(-256, -1)]]
    lists += [[(MIN, -2), (0, MAX)], [(MIN, MIN), (-1, 0), (MAX, MAX)], [(-(2**32), -256), (-1, -1), (255, 65535)]]
    return lists + [shapes.in_keys(shapes.about_zero(rng, shapes.fresh(rng, SET, n))) for n in (1, 2, 4)]


def map_lists(rng):
    """Maps of up to 4 entries."""
    lists = [[], [(0, M, 0)], [(0, 0, M)], [(0, 255, 255), (256, M, 0)], [(0, 0, 0), (1, 1, M), (2, M, 0)]]
    return lists + [shapes.fresh(rng, MAP, n) for n in (1, 2, 3, 4)]


def bulletins(rng):
    """Bulletins of up to 5 ranges in all."""
    pairs = [([], []), ([(0, M)], []), ([], [(0, M)]), ([(0, 0)], [(M, M)]), ([(0, 255), (M, M)], [(256, M - 1)])]
    for r, w in ((1, 1), (2, 2), (3, 2)):
        released = shapes.fresh(rng, SET, r)
        pairs.append((released, model.difference(shapes.fresh(rng, SET, w), released)))
    return pairs


def forms(rng):
    """Every form to damage: the reading calls to ask, the form, and outputs with room for it."""
    listed = []
    for items in set_lists(rng) + [shapes.fresh(rng, SET, 40)]:
        names = ["set_read", "set_judge_form", "member"] if len(items) < 3 else ["set_read"]
        for mark in marks(items):
            listed += [(name, model.set_form(items, mark), [2 * len(items) + 4] if name == "set_read" else []) for name in names]
    for items in signed_lists(rng) + [shapes.in_keys(shapes.fresh(rng, SET, 40))]:
        listed += [("signed_read", model.signed_form(items, mark), [2 * len(items) + 4]) for mark in marks(items)]
    for items in map_lists(rng) + [shapes.fresh(rng, MAP, 30)]:
        listed += [("map_read", model.map_form(items, mark), [3 * len(items) + 5]) for mark in marks(items)]
    for released, withdrawn in bulletins(rng):
        outputs = [2 * len(released) + 3, 2 * len(withdrawn) + 4]
        listed += [("bulletin_read", model.bulletin_form(released, withdrawn, mark), outputs) for mark in marks(released + withdrawn)]
    return listed


def marks(items):
    """The marks with which a form is damaged: the new one, and where it has at most one item, or five, the old one too."""
    return [model.NEW, model.OLD] if len(items) in (0, 1, 5) else [model.NEW]


def body_places(form):
    """The places of a form that lie in a record's body."""
    places, at = set(), 0
    for piece in generate.split(form):
        places.update(range(at + 3, at + len(piece) - 2))
        at += len(piece)
    return places


def damaged(form, rng):
    """Each damaged form, and whether it may be accepted: of an old form, with a 00 that became FF, or an FF that became 00, in a body."""
    body = body_places(form) if form[:2] == model.OLD else set()
    for length in range(len(form)):
        yield form[:length], False
    for at, old in enumerate(form):
        values = range(256) if len(form) <= SHORT else {old ^ 1, old ^ 0x80, old ^ 0xFF, 0, 0xFF, rng.randrange(256)}
        for new in values:
            if new != old:
                yield form[:at] + bytes([new]) + form[at + 1 :], at in body and {old, new} == {0x00, 0xFF}


def cases_of(listed, rng):
    """Each damaged form as a case, whether it may be accepted, and the mark of the form that was damaged."""
    for name, form, outputs in listed:
        blocks = [shapes.garbage(rng, words) for words in outputs]
        args = [rng.choice([0, 1, M])] if name == "member" else []
        for data, may in damaged(form, rng):
            yield wire.Case(name, [data, *blocks], args, placement=len(data) % 2), may, form[:2]


def batches(pairs):
    """The cases in batches for the driver."""
    batch = []
    for pair in pairs:
        batch.append(pair)
        if len(batch) == BATCH:
            yield batch
            batch = []
    if batch:
        yield batch


def run_batch(driver, batch):
    """Runs a batch: how many forms were accepted, or None after a failure, which is printed."""
    cases = [case for case, _, _ in batch]
    outcomes = [model.run(case.name, case.lent, case.args) for case in cases]
    for wrong in wire.mismatches(driver, cases, outcomes):
        wire.report(*wrong, run.KEPT)
        return None
    accepted = [(case, may) for (case, may, _), outcome in zip(batch, outcomes) if outcome[0] < 16]
    for case, may in accepted:
        if not may:
            print("damage: a damaged form was accepted:", case.text())
            return None
    return len(accepted)


def main():
    """The test."""
    driver, rng, began = wire.Driver(sys.argv[1:]), random.Random(1), time.monotonic()
    os.makedirs(os.path.dirname(run.KEPT), exist_ok=True)
    listed = forms(rng)
    tried, accepted, allowed = Counter(), 0, 0
    for batch in batches(cases_of(listed, rng)):
        found = run_batch(driver, batch)
        if found is None:
            return False
        tried.update(mark for _, _, mark in batch)
        accepted += found
        allowed += sum(may for _, may, _ in batch)
    many = Counter(form[:2] for form in {form for _, form, _ in listed})
    print(
        f"damage: {tried[model.NEW]} damaged forms of {many[model.NEW]} with the new mark tried, all refused; {tried[model.OLD]} of "
        f"{many[model.OLD]} with the old one, {accepted} accepted, all of them among the {allowed} with 00 for FF or FF for 00 in a body; "
        f"{time.monotonic() - began:.0f} s"
    )
    return True


if __name__ == "__main__":
    sys.exit(0 if main() else 1)
