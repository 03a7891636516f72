"""The differential test: every call of the header, through C, against the model.

    run.py [--cases N] [--seconds S] [--seed X] [--sample N] [--tally] [--replay FILE] -- DRIVER...

DRIVER... is the command of the C program of driver.c. Without options the seed and the number of cases are fixed. With --cases or
--seconds and no --seed a seed is drawn, and printed first; the cases made for refusals, limits, marks, searches, windows of fits, trays
and prefix blocks, about 37,000, are always run. --sample N runs N cases of the fixed run, drawn by the seed, and asks nothing of the tally.
--tally prints what was tried of each call. --replay runs one case that a mismatch left behind. The exit status is 1 on a mismatch, or if
something was not tried.
"""

import argparse
import os
import random
import re
import secrets
import sys
import time
from collections import Counter

import generate
import model
import refusals
import wire

CASES = 82000
SEED = "1"
PAIR_TIMES, SINGLE_TIMES, LIMIT_TIMES, FOREIGN_TIMES, MARK_TIMES = 5, 5, 10, 20, 2
AT_LEAST = {"call": 10, "refusal": 5, "pair": PAIR_TIMES, "empty answer": 20, "refused foreign form": FOREIGN_TIMES // 2, "searched place": 1}
AT_LEAST |= {"begun window": 1, "tray": 1, "accepted exponent": 2, "aligned range": 1, "long output": 10}
AT_LEAST |= {"changed mark": MARK_TIMES, "taken form": 50}
BATCH = 500
KEPT = "build/differential-mismatch.json"
NAMES = [name for name, _, _ in model.CALLS]
# The questions that may find nothing, and then answer 0 values.
MAY_FIND_NOTHING = ["set_range_at", "set_size", "set_least_member", "set_least_non_member", "set_window"]
MAY_FIND_NOTHING += ["signed_range_at", "signed_least_member", "signed_least_non_member", "signed_window", "key_difference"]
MAY_FIND_NOTHING += ["map_look_up", "map_window", "map_site_over_factory"]
# The calls that search a list for a number, and those that give the range at the index so found; the places of lists with so many items:
# four for each item. The fits search for the first range of their window: each in a window that begins at each of the places.
SEARCHING = [name for name in NAMES if name == "member" or refusals.ARGS_OF.get(name) in ("x", "i", "ab", "abv")]
PLACES = [(count, place) for count in (1, 2, 3, 4, 5, 6, 7, 8, 9, 15, 16, 17) for place in range(4 * count)]
FITS = [name for name in NAMES if "k" in refusals.ARGS_OF.get(name, "")]
WINDOWS = [(*place, way) for place in PLACES for way in generate.BEGUN]
# The ranges about a prefix block of 2^e numbers, with ends at its own or one beside them; and the long outputs of prefix blocks: which
# ranges, and how many words more than they need, or as many as a full set has.
POWERS = [(e, i, j) for e in range(65) for i in (-1, 0, 1) for j in (-1, 0, 1)]
LONG = [(way, more) for way in generate.MANY for more in (-2, -1, 0, 1, 2, None)]
# Each reading call with each kind of form that it does not read.
FOREIGN = [(name, kind) for name in NAMES if refusals.reads_bytes(name) for kind in generate.FORMS if kind != generate.form_kind(name)]
# Each reading call with forms of five records in which a record, or each from it on, has another mark than the form's.
READING = [name for name in NAMES if refusals.reads_bytes(name)]
MARKS = [(mark, i, way) for mark in ("old", "new") for i in range(5) for way in generate.MARKED]


def header_calls():
    """The calls that the header declares, in its order."""
    header = os.path.join(os.path.dirname(os.path.abspath(__file__)), "../../include/wimblorque.h")
    with open(header, encoding="ascii") as text:
        return re.findall(r"^WIMBLORQUE_MUST_USE \w+ wimblorque_(\w+)\(", text.read(), re.MULTILINE)


def jobs(cases):
    """What to try, in short: the wanted refusals of each call, alone and in pairs, the limits, forms of another kind than the one that is
    read, another mark at every record, every place of a list that is searched, windows of fits that begin at each, trays at every power of
    two, prefix blocks at every power of two and many of them, and random cases up to so many."""
    listed = []
    for name in NAMES:
        listed += [("refusals", name, (x,), i) for x in refusals.refusals_of(name) for i in range(SINGLE_TIMES)]
        listed += [("refusals", name, pair, i) for pair in refusals.listed_pairs(name) for i in range(PAIR_TIMES)]
        listed += [("limit", name, (), i) for i in range(LIMIT_TIMES)]
    listed += [("foreign", name, (kind,), i) for name, kind in FOREIGN for i in range(FOREIGN_TIMES)]
    listed += [("mark", name, mark, i) for name in READING for mark in MARKS for i in range(MARK_TIMES)]
    listed += [("place", name, place, 0) for name in SEARCHING for place in PLACES]
    listed += [("begun", name, window, 0) for name in FITS for window in WINDOWS]
    listed += [("tray", name, tray, 0) for name in refusals.ALIGNED for tray in generate.TRAYS]
    listed += [("power", name, power, 0) for name in refusals.PREFIXES for power in POWERS]
    listed += [("long", name, long, 0) for name in refusals.PREFIXES for long in LONG]
    listed += [("random", NAMES[i % len(NAMES)], (), i // len(NAMES)) for i in range(max(0, cases - len(listed)))]
    return listed


# What makes the case of a job that was listed by what it tries.
LISTED = {"mark": generate.mark_case, "place": generate.place_case, "begun": generate.begun_case}
LISTED |= {"tray": generate.tray_case, "power": generate.power_case, "long": generate.long_case}


def case_of(job, seed):
    """The case of a job; it depends on the job and the seed alone."""
    sort, name, pair, i = job
    own = f"{seed}/{sort}/{name}/{pair}/{i}"
    if sort == "refusals":
        return refusals.case_for(name, pair, own)
    if sort == "foreign":
        return generate.foreign_case(name, pair[0], own)
    if sort in LISTED:
        return LISTED[sort](name, *pair, own)
    return generate.limit_case(name, own) if sort == "limit" else generate.random_case(name, own)


class Tally:
    """How often each call, each refusal of a call, each ordered pair of refusals and each empty answer was tried, forms of another kind that
    were refused as such, another mark at each record, forms of either mark that were taken, each place of a list that was searched, windows
    of fits that begin at each, trays at each power of two, and accepted ones, prefix blocks at each power of two, and more of them than a set
    can hold ranges."""

    def __init__(self):
        self.calls, self.refusals, self.pairs, self.nothing, self.foreign = (Counter() for _ in range(5))
        self.listed, self.long, self.taken, self.exponents = (Counter() for _ in range(4))

    def count(self, job, case, outcome):
        """Counts a case."""
        sort, name, pair, _ = job
        self.calls[name] += 1
        self.refusals[name, outcome[0] - 16 if outcome[0] >= 16 else 0] += 1
        if sort == "refusals" and len(pair) == 2:
            self.pairs[name, pair] += 1
        if sort in LISTED:
            self.listed[sort, name, pair] += 1
        if name in refusals.ALIGNED and outcome[0] == 0:
            self.exponents[name, case.args[3]] += 1
        if name in READING and outcome[0] < 16:
            self.taken[name, bytes(case.lent[0][:2])] += 1
        if name in refusals.PREFIXES and outcome[0] == 0 and outcome[2][1][0] > model.LIMIT[model.SET]:
            self.long[name] += 1
        if outcome[0] == 0 and name in MAY_FIND_NOTHING and outcome[1][1] == 0:
            self.nothing[name] += 1
        if sort == "foreign" and outcome[0] == 16 + 10:
            self.foreign[name, *pair] += 1

    def tried(self, sort, names, each):
        """How often each call was tried on each of what was listed for it."""
        return {(name, which): self.listed[sort, name, which] for name in names for which in each}

    def groups(self):
        """Everything that must be tried, with how often it was: accepted calls count as refusal 0."""
        can = [(name, number) for name in NAMES for number in sorted({0} | set(map(refusals.number_of, refusals.refusals_of(name))))]
        yield "call", {name: self.calls[name] for name in NAMES}
        yield "refusal", {key: self.refusals[key] for key in can}
        yield "pair", {(name, pair): self.pairs[name, pair] for name in NAMES for pair in refusals.listed_pairs(name)}
        yield "empty answer", {name: self.nothing[name] for name in MAY_FIND_NOTHING}
        yield "refused foreign form", {key: self.foreign[key] for key in FOREIGN}
        yield "changed mark", self.tried("mark", READING, MARKS)
        yield "taken form", {(name, mark): self.taken[name, mark] for name in READING for mark in model.CHECK}
        yield "searched place", self.tried("place", SEARCHING, PLACES)
        yield "begun window", self.tried("begun", FITS, WINDOWS)
        yield "tray", self.tried("tray", refusals.ALIGNED, generate.TRAYS)
        yield "accepted exponent", {(name, j): self.exponents[name, j] for name in refusals.ALIGNED for j in range(64)}
        yield "aligned range", self.tried("power", refusals.PREFIXES, POWERS)
        yield "long output", {name: self.long[name] for name in refusals.PREFIXES}

    def missing(self):
        """What was tried too seldom."""
        return [f"{sort} {key}: {times}" for sort, counts in self.groups() for key, times in counts.items() if times < AT_LEAST[sort]]

    def short(self):
        """One line."""
        said = []
        for sort, counts in self.groups():
            key = min(counts, key=counts.get)
            said.append(f"{len(counts)} {sort}s (least tried: {counts[key]} times)")
        accepted = sum(times for (_, number), times in self.refusals.items() if number == 0)
        return f"{sum(self.calls.values())} cases, {accepted} accepted; " + ", ".join(said)

    def full(self):
        """One line for each call."""
        for name in NAMES:
            numbers = sorted(number for call, number in self.refusals if call == name)
            refused = ", ".join(f"{number}: {self.refusals[name, number]}" for number in numbers if number)
            pairs = sum(times for (call, _), times in self.pairs.items() if call == name)
            print(f"  {name}: {self.calls[name]} cases, accepted {self.refusals[name, 0]}; refused {refused}; pairs {pairs}")


def run_batch(driver, seed, batch, tally):
    """Runs some jobs; true if all agree. The first that does not is printed."""
    cases = [case_of(job, seed) for job in batch]
    outcomes = [model.run(case.name, case.lent, case.args) for case in cases]
    for job, case, outcome in zip(batch, cases, outcomes):
        tally.count(job, case, outcome)
    for wrong in wire.mismatches(driver, cases, outcomes):
        wire.report(*wrong, KEPT)
        print(f"differential: the library differs from the model; seed {seed}")
        return False
    return True


def run_all(driver, seed, chosen, seconds, tally):
    """Runs the jobs, and random ones behind them as long as there is time; true if all agree."""
    began, extra = time.monotonic(), 0
    while chosen or (seconds and time.monotonic() - began < seconds):
        if not chosen:
            chosen = [("random", NAMES[i % len(NAMES)], (), 10**9 + extra + i) for i in range(BATCH)]
            extra += BATCH
        if not run_batch(driver, seed, chosen[:BATCH], tally):
            return False
        chosen = chosen[BATCH:]
    return True


def replay(driver, file):
    """Runs a case that was kept."""
    with open(file, encoding="ascii") as kept:
        case = wire.case_of(kept.read())
    outcome = model.run(case.name, case.lent, case.args)
    for wrong in wire.mismatches(driver, [case], [outcome]):
        wire.report(*wrong, file)
        return False
    print(f"differential: the case in {file} agrees")
    return True


def options():
    """The command line."""
    parser = argparse.ArgumentParser(description=__doc__, formatter_class=argparse.RawDescriptionHelpFormatter)
    parser.add_argument("--cases", type=int)
    parser.add_argument("--seconds", type=float, default=0)
    parser.add_argument("--seed")
    parser.add_argument("--sample", type=int)
    parser.add_argument("--tally", action="store_true")
    parser.add_argument("--replay", metavar="FILE")
    parser.add_argument("driver", nargs="+")
    return parser.parse_args()


def main():
    """The test."""
    asked = options()
    driver = wire.Driver(asked.driver)
    os.makedirs(os.path.dirname(KEPT), exist_ok=True)
    if asked.replay:
        return replay(driver, asked.replay)
    if header_calls() != NAMES:
        print("differential: the calls of the header are not those of the model:", set(header_calls()) ^ set(NAMES))
        return False
    seed = asked.seed or (secrets.token_hex(8) if asked.cases or asked.seconds else SEED)
    print(f"differential: seed {seed}", flush=True)
    chosen = jobs(asked.cases or CASES)
    if asked.sample:
        chosen = random.Random(seed).sample(chosen, min(asked.sample, len(chosen)))
    tally, began = Tally(), time.monotonic()
    agrees = run_all(driver, seed, chosen, asked.seconds, tally)
    if asked.tally:
        tally.full()
    missing = [] if asked.sample or not agrees else tally.missing()
    for each in missing[:20]:
        print("differential: tried too seldom:", each)
    if agrees and not missing:
        said = f"{sum(tally.calls.values())} cases" if asked.sample else tally.short()
        print(f"differential: the library answers as the model does: {said}; {time.monotonic() - began:.0f} s")
    return agrees and not missing


if __name__ == "__main__":
    sys.exit(0 if main() else 1)
