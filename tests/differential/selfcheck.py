"""Checks the model itself: against brute force on sets of a few cells, against the worked numbers of the requirements, and its CRC against
the one of Python's own library.

The line 0..M is cut into 17 or 18 cells, all but one or two of them a single number: the single numbers stand at the line's low end,
at its high end, at both, or in its middle, and the wide cells are all the rest. A set is then a Python set of cells, a map a dict from
cells to values, and every answer is found by trying cells one by one. The line of the signed sets is -2^63..2^63 - 1, cut alike. For
prefix blocks a short line of 8 or 16 numbers is laid into the long one, at its ends and over all of it, and every list of prefix blocks
there is tried.
"""

import binascii
import random
import struct
import sys

import generate
import model
import refusals
from model import M, MAP, NEW, OLD, SET

LAYOUTS = [[1] * 8 + [M + 1 - 16] + [1] * 8, [1] * 16 + [M + 1 - 16], [M + 1 - 16] + [1] * 16]
LAYOUTS += [[2**63 - 8] + [1] * 16 + [2**63 - 8]]


class Line:
    """The line as cells: of the numbers from 0 on, or of the keys. `own` is how the calls are named that take its numbers."""

    def __init__(self, widths, signed=False):
        self.own = "signed" if signed else "set"
        self.least, self.most = (-(2**63), 2**63 - 1) if signed else (0, M)
        self.widths = widths
        self.low = [self.least + sum(widths[:i]) for i in range(len(widths))]
        self.high = [low + width - 1 for low, width in zip(self.low, widths)]
        self.cells = range(len(widths))

    def runs(self, held):
        """The ranges or entries of a set or dict of cells: neighbours of the same value are one item."""
        value = held.get if isinstance(held, dict) else lambda cell: 0 if cell in held else None
        items = []
        for cell in self.cells:
            if value(cell) is None:
                continue
            if cell > 0 and value(cell - 1) == value(cell):
                items[-1][1] = self.high[cell]
            else:
                items.append([self.low[cell], self.high[cell]] + ([value(cell)] if isinstance(held, dict) else []))
        return items

    def block(self, held, spare=0):
        """The stored form of a set or dict of cells, and spare words: the least number of the line is the word 0."""
        items = [[low - self.least, high - self.least, *value] for low, high, *value in self.runs(held)]
        return [len(items)] + [word for item in items for word in item] + [77] * spare

    def cell_of(self, x):
        """The cell of a number."""
        return next(cell for cell in self.cells if self.low[cell] <= x <= self.high[cell])


def expect(what, got, wanted):
    """Ends the program where two things differ."""
    if got != wanted:
        sys.exit(f"selfcheck: {what}: the model gives {got}, and it should be {wanted}")


def values(name, lent, args=()):
    """The values of an accepted call, or the refusal's number."""
    status, answer, _ = model.run(name, lent, list(args))
    return list(answer[2 : 2 + answer[1]]) if status == 0 else status - 16


def keys(name, lent, args=()):
    """The same, with the values read as C reads them in a cast to int64_t where they are keys."""
    found = values(name, lent, args)
    if isinstance(found, int) or not name.startswith(("signed", "key")) or name == "signed_window":
        return found
    return [struct.unpack("<q", struct.pack("<Q", value))[0] for value in found]


def written(name, lent, args=()):
    """What the last lent block holds after an accepted call, or the refusal's number."""
    status, _, after = model.run(name, lent, list(args))
    return after[-1] if status == 0 else status - 16


def zeros(block, length):
    """The block with zeros behind it up to a length."""
    return block + [0] * (length - len(block))


def check_member(line, one, block, runs):
    """Both ends of every cell: is it in the set, and at how many cells below it does a run end; and what stands at the indices that this
    tells. A cell ends a run if the next one is not in the set."""
    for cell in line.cells:
        below = len([c for c in range(cell) if c in one and c + 1 not in one])
        for x in {line.low[cell], line.high[cell]}:
            expect(f"member {x} of {runs}", values(line.own + "_member", [block], [x]), [int(cell in one), below])
        due = [[run for run in runs if run[1] < line.low[cell]][-1:], [run for run in runs if run[1] >= line.low[cell]][:1]]
        for i, found in zip((below - 1, below), due):
            expect(f"range {i}, at {x}", keys(line.own + "_range_at", [block], [i % 2**64]), found[0] if found else [])


def check_questions(line, rng, one, two):
    """Every question about one set, and the three about two."""
    block, other = line.block(one, rng.randrange(3)), line.block(two)
    x = rng.choice(line.low + line.high)
    cell = line.cell_of(x)
    runs = line.runs(one)
    check_member(line, one, block, runs)
    for i in (0, max(1, len(runs)) - 1, len(runs), M):
        expect("range at", keys(line.own + "_range_at", [block], [i]), runs[i] if i < len(runs) else [])
    expect("size", values("set_size", [block]), [sum(line.widths[c] for c in one) - 1] if one else [])
    for name, held in (("_least_member", one), ("_least_non_member", set(line.cells) - one)):
        above = [x] if cell in held else [line.low[c] for c in line.cells if c > cell and c in held][:1]
        expect(name, keys(line.own + name, [block], [x]), above)
    expect("equal", values("set_equal", [block, other]), [int(one == two)])
    expect("within", values("set_within", [block, other]), [int(one <= two)])
    expect("disjoint", values("set_disjoint", [block, other]), [int(not one & two)])


def check_window(line, rng, held, name, kind):
    """The windows of a set or a map."""
    first, last = sorted(rng.choices(line.cells, k=2))
    runs = line.runs(held)
    met = [run for run in runs if any(run[0] <= line.low[c] <= run[1] for c in range(first, last + 1))]
    below = [run for run in runs if run not in met and run[0] < line.low[first]]
    wanted = [1 + kind * len(below), kind * len(met)] if met else []
    expect(name, values(name, [line.block(held)], [line.low[first], line.high[last]]), wanted)


def check_results(line, rng, one, two):
    """Insert and remove in place, and the set operations."""
    everything = set(line.cells)
    first, last = sorted(rng.choices(line.cells, k=2))
    ends, asked = [line.low[first], line.high[last]], set(range(first, last + 1))
    block, other, length = line.block(one, 20), line.block(two), 41
    room = [99] * length
    expect("insert", written(line.own + "_insert", [block], ends), zeros(line.block(one | asked), len(block)))
    expect("remove", written(line.own + "_remove", [block], ends), zeros(line.block(one - asked), len(block)))
    results = {"union": one | two, "intersection": one & two, "difference": one - two, "symmetric_difference": one ^ two}
    for name, result in results.items():
        expect(name, written("set_" + name, [block, other, room]), zeros(line.block(result), length))
    expect("complement", written("set_complement", [block, room]), zeros(line.block(everything - one), length))
    for spare in range(3):
        block = line.block(one, spare)
        for name, result in (("insert", one | asked), ("remove", one - asked)):
            few = 1 + 2 * len(line.runs(result)) > len(block)
            due = 5 if few else zeros(line.block(result), len(block))
            expect(name + " room", written(f"{line.own}_{name}", [block], ends), due)
            expect(name + " backwards", written(f"{line.own}_{name}", [block], ends[::-1]), due if ends[0] == ends[1] else 4)


def brute_fit(line, one, first, last, k, j, best):
    """In every cell the least number that 2^j divides is tried as the start of a run; the gap about it is all free cells of the window to
    its left and to its right."""
    tries = []
    for cell in set(range(first, last + 1)) - one:
        low, high = cell, cell
        while low > first and low - 1 not in one:
            low -= 1
        while high < last and high + 1 not in one:
            high += 1
        start = line.low[cell] + -line.low[cell] % 2**j
        if start <= line.high[cell] and start + k - 1 <= line.high[high]:
            tries.append((line.high[high] - line.low[low] if best else 0, start))
    return [min(tries)[1]] if tries else 7


def check_fit(line, one, ends, k, j, aligned):
    """First and best fit in the window between two cells, as questions and as reservations; with j among the arguments, or without."""
    args = [line.low[ends[0]], line.high[ends[1]], k] + ([j] if aligned else [])
    for best in ("first", "best"):
        place = brute_fit(line, one, *ends, k, j, best == "best")
        ask, reserve = (f"{line.own}_{name}{'_aligned' if aligned else ''}" for name in (best + "_fit", "reserve_" + best))
        expect(f"{ask} {args}", keys(ask, [line.block(one)], args), place)
        if place != 7:
            inserted = written(line.own + "_insert", [line.block(one, 4)], [place[0], place[0] + k - 1])
            expect(f"{reserve} {args}", written(reserve, [line.block(one, 4)], args), inserted)
            expect(f"{reserve}'s place", keys(reserve, [line.block(one, 4)], args), place)


def check_fits(line, rng, one):
    """Fits that start anywhere; and on the line of the numbers those that start at multiples of 2^j: with j = 0 their outcome is that of the
    others, refused or not."""
    ends = sorted(rng.choices(line.cells, k=2))
    k = min(M, max(1, rng.choice([1, 2, 3, 4, M - 15, M - 14, M]) + rng.randrange(-1, 2)))
    check_fit(line, one, ends, k, 0, False)
    if line.own == "set":
        for j in (0, rng.randrange(1, 5), rng.choice([rng.randrange(5, 62), 62, 63])):
            check_fit(line, one, ends, rng.choice([k, rng.randrange(1, 6)]), j, True)
        lent, args = [line.block(one, rng.randrange(3))], [line.low[rng.choice(ends)], line.high[rng.choice(ends)], rng.choice([0, 1, k])]
        for name in refusals.ARGS["abk"]:
            expect(f"{name}, aligned to 1", model.run(name + "_aligned", lent, args + [0]), model.run(name, lent, args))


def check_maps(line, rng, upper, lower, held):
    """Every call about maps."""
    x = rng.choice(line.low + line.high)
    cell = line.cell_of(x)
    first, last = sorted(rng.choices(line.cells, k=2))
    ends, asked = [line.low[first], line.high[last]], range(first, last + 1)
    block, other, length = line.block(upper, 6), line.block(lower), 61
    room = [99] * length
    value = rng.randrange(3)
    expect("look up", values("map_look_up", [block], [x]), [upper[cell]] if cell in upper else [])
    assigned = upper | dict.fromkeys(asked, value)
    expect("assign", written("map_assign", [block], ends + [value]), zeros(line.block(assigned), len(block)))
    without = {c: v for c, v in upper.items() if c not in asked}
    expect("erase", written("map_erase", [block], ends), zeros(line.block(without), len(block)))
    expect("overlay", written("map_overlay", [block, other, room]), zeros(line.block(lower | upper), length))
    within = {c: v for c, v in upper.items() if c in held}
    expect("restriction", written("map_restriction", [block, line.block(held), room]), zeros(line.block(within), length))
    expect("domain", written("map_domain", [block, room]), zeros(line.block(set(upper)), length))
    found = []
    for position, entries in ((1, lower), (0, upper)):
        for i, run in enumerate(line.runs(entries)):
            found = [1 + 3 * i, 3, position] if cell in entries and run[0] <= x <= run[1] else found
    expect("site over factory", values("map_site_over_factory", [block, other], [x]), found)


def check_bulletins(line, one, bulletin1, bulletin2):
    """Application and fold."""
    (r1, w1), (r2, w2) = bulletin1, bulletin2
    blocks = [line.block(held) for held in (r1, w1, r2, w2)]
    length = 41
    room = [99] * length
    shared1, shared2 = bool(r1 & w1), bool(r2 & w2)
    applied = 14 if shared1 else zeros(line.block((one - w1) | r1), length)
    expect("apply", written("bulletin_apply", [line.block(one), blocks[0], blocks[1], room]), applied)
    status, _, after = model.run("bulletin_fold", blocks + [room, room], [])
    if shared1 or shared2:
        expect("fold", status - 16, 14)
    else:
        expect("fold, released", after[4], zeros(line.block((r1 - w2) | r2), length))
        expect("fold, withdrawn", after[5], zeros(line.block((w1 - r2) | w2), length))
    form = written("bulletin_write", [*blocks[:2], bytearray(9 + 21 * (blocks[0][0] + blocks[1][0]))], [0])
    if shared1:
        expect("bulletin", form, 14)
    else:
        check_records(bytes(form))
        for mark in (OLD, NEW):
            status, _, after = model.run("bulletin_read", [in_mark(mark, bytes(form)), room, room], [])
            expect("bulletin read", (status, *after[1:]), (0, zeros(blocks[0], length), zeros(blocks[1], length)))


def check_soundness(rng):
    """A block is sound exactly if its items are the runs of its own numbers, in order: tried at both ends of the line."""
    for kind in (SET, MAP):
        items = [[rng.randrange(9), rng.randrange(9)] + [rng.randrange(2)] * (kind - 2) for _ in range(rng.randrange(4))]
        if rng.randrange(4):
            items = sorted(sorted(item[:2]) + item[2:] for item in items)
        for line in (Line([1] * 10 + [M - 9]), Line([M - 9] + [1] * 10)):
            base = line.low[0] if line.widths[0] == 1 else line.low[1] + 1
            placed = [[item[0] + base, item[1] + base] + item[2:] for item in items]
            held = {} if kind == MAP else set()
            for item in placed:
                cells = [c for c in line.cells if item[0] <= line.low[c] <= item[1]]
                held = held | (dict.fromkeys(cells, item[2]) if kind == MAP else set(cells))
            block = [len(items)] + [word for item in placed for word in item]
            name = "set_size" if kind == SET else "map_look_up"
            refused = values(name, [block], [] if kind == SET else [0]) == 3
            expect(f"soundness of {block}", refused, line.runs(held) != placed)


def check_written(named_blocks):
    """Reading gives back what writing wrote, in the bytes that it takes, for blocks by the name of what they hold."""
    for name, block in named_blocks:
        size = 7 + (29 if name == "map" else 21) * block[0]
        expect(name + " size", values(name + "_write", [block, bytearray(size)], [0]), [size])
        expect(name + " space", values(name + "_write", [block, bytearray(size)], [1]), 15)
        form = written(name + "_write", [block, bytearray(size + 2)], [1])
        expect(name + " bytes around", (form[0], form[-1]), (0, 0))
        expect(name + " read", written(name + "_read", [form[1:-1], [5] * 60]), zeros(block, 60))
        check_records(bytes(form[1:-1]))
        check_old(name, block, bytes(form[1:-1]))


def check_records(form):
    """Each record of a form that was written has the new mark, and the check that Python's own library gives it."""
    for piece in generate.split(form):
        expect("the mark that is written", piece[:2], b"\xc5\x3b")
        expect("the CRC", int.from_bytes(piece[-2:], "big"), binascii.crc_hqx(piece[2:-2], 0xFFFF))


def in_mark(mark, form):
    """The form of the same with another mark."""
    return b"".join(generate.rechecked(mark + piece[2:]) for piece in generate.split(form))


def check_old(name, block, form):
    """The old form of what a block holds is read as the block, and written as the new form."""
    old = in_mark(OLD, form)
    read = written(name + "_read", [old, [5] * len(block)])
    expect(name + " read in the old form", read, block)
    expect(name + " written after that", written(name + "_write", [read, bytearray(len(old))], [0]), form)


def check_accepted(rng, line, one):
    """Bytes are accepted exactly if they are the form of the ranges in them, old or new, and these sound: in numbers, or in keys."""
    form_of, kind = (model.signed_form, model.SIGNED_RANGE) if line.own == "signed" else (model.set_form, model.RANGE)
    mark = rng.choice([OLD, NEW])
    form = bytearray(form_of([tuple(run) for run in line.runs(one)], mark))
    form[rng.randrange(len(form))] = rng.choice([0, 255, form[0], rng.randrange(256)])
    form = rng.choice([form, form, form[:-1], form + b"\0", form + model.record(kind, (0, 0), 8, mark)])
    count, rest = divmod(len(form) - 7, 21)
    ends = struct.Struct(">qq" if line.own == "signed" else ">QQ")
    items = [ends.unpack_from(form, 10 + 21 * i) for i in range(count)] if rest == 0 else []
    accepted = rest == 0 and form in (form_of(items, OLD), form_of(items, NEW)) and model.sound_items(items)
    expect("acceptance", model.run(line.own + "_read", [form, [0] * 99], [])[0] == 0, accepted)
    if line.own == "set":
        expect("judging", model.run("set_judge_form", [form], [])[0] == 0, accepted)


def check_keys(rng, line):
    """Keys and words, one against the other, and differences against C's own limits of a signed number."""
    a, b = rng.choice(line.low + line.high), rng.choice(line.low + line.high)
    expect("word of key", values("word_of_key", [], [a]), [a - line.least])
    expect("key of word", keys("key_of_word", [], [a - line.least]), [a])
    try:
        struct.pack("<q", a - b)
        expect("difference", keys("key_difference", [], [a, b]), [a - b])
    except struct.error:
        expect("too far", keys("key_difference", [], [a, b]), [])


def check_against_brute_force(rounds, seed):
    """All of the above, on random sets and maps of every layout, and on signed sets what there is of it."""
    rng = random.Random(seed)
    for i in range(rounds):
        line = Line(rng.choice(LAYOUTS), signed=i % 2 == 1)

        def some():
            """Few cells or many."""
            part = rng.choice([0.1, 0.3, 0.5, 0.7, 0.9])
            return {c for c in line.cells if rng.random() < part}

        one, two = some(), some()
        check_questions(line, rng, one, two if rng.randrange(4) else set(one))
        check_window(line, rng, one, line.own + "_window", SET)
        check_results(line, rng, one, two)
        check_fits(line, rng, one)
        check_accepted(rng, line, one)
        check_written([(line.own, line.block(one))])
        if line.own == "signed":
            check_keys(rng, line)
            continue
        upper, lower = ({c: rng.randrange(3) for c in some()} for _ in "ab")
        r1, r2 = some(), some()
        w1, w2 = (some() - r if rng.randrange(8) else some() for r in (r1, r2))
        check_window(line, rng, upper, "map_window", MAP)
        check_maps(line, rng, upper, lower, one)
        check_bulletins(line, one, (r1, w1), (r2, w2))
        check_soundness(rng)
        check_written([("map", line.block(upper))])


def fewest(width):
    """Of a line of 2^width numbers: every set that blocks can name, as bits, with how few of them do. Every list of blocks is tried, in
    any order and overlapping or not: from the sets that k of them name, those that one more names with them."""
    blocks = [(2 ** 2**e - 1) << start for e in range(width + 1) for start in range(0, 2**width, 2**e)]
    found, last, count = {0: 0}, {0}, 0
    while last:
        count += 1
        last = {named | block for named in last for block in blocks} - found.keys()
        found |= dict.fromkeys(last, count)
    return found


def runs_of(bits, width):
    """The runs of a set of numbers of a short line."""
    line = Line([1] * 2**width + [M + 1 - 2**width])
    return line.runs({x for x in range(2**width) if bits >> x & 1})


def check_pairs(ranges, few):
    """Both methods give the same prefix blocks of a set, in order and each as it must be; they name the set; there are so few of them."""
    for name in ("set_prefix_blocks", "set_audit_blocks"):
        block = [len(ranges)] + [end for each in ranges for end in each]
        status, _, (_, out) = model.run(name, [block, [9] * (2 * few + 4)], [])
        expect(f"{name} of {ranges}: status", status, 0)
        pairs = list(zip(out[1::2], out[2::2]))[: out[0]]
        expect(f"{name} of {ranges}: the later words", out[2 * out[0] + 1 :], [0] * (2 * few + 3 - 2 * out[0]))
        expect(f"{name} of {ranges}: multiples", [s % 2**e for s, e in pairs], [0] * len(pairs))
        joined = []
        for start, e in pairs:
            low = joined.pop()[0] if joined and joined[-1][1] + 1 == start else start
            joined.append([low, start + 2**e - 1])
        expect(f"{name} of {ranges}: the numbers named", joined, [list(each) for each in ranges])
        expect(f"{name} of {ranges}: how many", len(pairs), few)
        if few:
            expect(f"{name} of {ranges}: no room", written(name, [block, [9] * (2 * few)]), 5)


def check_prefixes(sample):
    """Every set of 8 numbers, and so many of 16: at both ends of the line, anywhere, and with every number made 2^61 or 2^60 of them."""
    rng = random.Random(20260301)
    for width, sets in ((3, range(2**8)), (4, [rng.randrange(2**16) for _ in range(sample)])):
        few = fewest(width)
        expect("sets of a short line that blocks name", len(few), 2 ** 2**width)
        for bits in sets:
            runs, wide = runs_of(bits, width), 2 ** (64 - width)
            for base in (0, M + 1 - 2**width, rng.getrandbits(64) >> width << width):
                check_pairs([(base + low, base + high) for low, high in runs], few[bits])
            check_pairs([(low * wide, (high + 1) * wide - 1) for low, high in runs], few[bits])


def check_most_prefixes():
    """Of every range of a line of 256 numbers: it has at most 2k - 2 prefix blocks, where its length has k binary digits; and some has."""
    most = {}
    for low in range(256):
        for high in range(low, 256):
            digits = (high - low + 1).bit_length()
            most[digits] = max(most.get(digits, 0), len(model.prefixes([(low, high)])))
    expect("the most prefix blocks of a range", most, {1: 1} | {k: 2 * k - 2 for k in range(2, 9)} | {9: 1})
    expect("of {1..M-1}", (len(model.prefixes([(1, M - 1)])), len(model.audited([(1, M - 1)]))), (126, 126))


def check_prefixes_worked():
    """Worked numbers about prefix blocks, by both methods."""
    for name in ("set_prefix_blocks", "set_audit_blocks"):
        expect("all numbers", written(name, [[1, 0, M], [9] * 3]), [1, 0, 64])
        expect("{5..9}", written(name, [[1, 5, 9], [9] * 7]), [3, 5, 0, 6, 1, 8, 1])
        expect("{5..9}, an odd last word", written(name, [[1, 5, 9], [9] * 8]), [3, 5, 0, 6, 1, 8, 1, 0])
        expect("{5..9}, no room", model.run(name, [[1, 5, 9], [9] * 6], [])[:2], (21, (1, 0, 0, 0, 0)))
        expect("the empty set", written(name, [[0, 4, 4], [9] * 4]), [0] * 4)
        expect("the empty set, one word", written(name, [[0], [9]]), [0])
        expect("0, 2..3, M", written(name, [[3, 0, 0, 2, 3, M, M], [9] * 7]), [3, 0, 0, 2, 1, M, 0])
        due = [(2**e, e) for e in range(63)] + [(M + 1 - 2 ** (e + 1), e) for e in reversed(range(63))]
        expect("{1..M-1}", written(name, [[1, 1, M - 1], [9] * 253]), [126] + [word for pair in due for word in pair])
        expect("{1..M-1}, no room", written(name, [[1, 1, M - 1], [9] * 252]), 5)
        expect("not sound", model.run(name, [[1, 9, 5], []], [])[:2], (19, (0, 0, 0, 0, 0)))
        expect("no output", model.run(name, [[1, 5, 9], []], [])[:2], (17, (1, 0, 0, 0, 0)))
        many = [4095] + [word for x in range(4095) for word in (4 * x + 1, 4 * x + 2)]
        expect("8,190 pairs", written(name, [many, [9] * 16381]), [8190] + [word for end in many[1:] for word in (end, 0)])


def check_sets_worked():
    """The worked numbers about sets, A to F, K, L and N."""
    expect("A", written("set_insert", [[0, 8, 8]], [5, 9]), [1, 5, 9])
    expect("B", written("set_insert", [[1, 5, 9]], [10, 12]), [1, 5, 12])
    expect("C", written("set_insert", [[1, 5, 9, 0, 0]], [11, 12]), [2, 5, 9, 11, 12])
    expect("D", written("set_remove", [[1, 0, M, 3, 3]], [7, 7]), [2, 0, 6, 8, M])
    expect("E", written("set_complement", [[0], [9, 9, 9]]), [1, 0, M])
    expect("E", values("set_size", [[1, 0, M]]), [M])
    expect("E", values("set_least_non_member", [[1, 0, M]], [0]), [])
    for k, first, best in ((2, [4], [10]), (3, [4], [4]), (5, 7, 7)):
        expect("F", values("set_first_fit", [[3, 0, 3, 8, 9, 12, M]], [0, M, k]), first)
        expect("F", values("set_best_fit", [[3, 0, 3, 8, 9, 12, M]], [0, M, k]), best)
    expect("K", values("set_size", [[1, 9, 5]]), 3)
    expect("L", written("set_insert", [[1, 5, 9]], [11, 11]), 5)
    expect("L", written("set_insert", [[1, 5, 9]], [10, 10]), [1, 5, 10])
    expect("N", values("set_size", [[]]), 1)


def check_trays_worked():
    """Worked numbers about fits at multiples of 2^j: the block, the window, k and j, and what first and best fit answer."""
    three, two, none = [3, 0, 3, 8, 9, 12, M], [2, 0, 0, 17, M], [0]
    cases = [(three, [0, M, 2, 1], [4], [10]), (three, [0, M, 2, 2], [4], [4]), (three, [0, M, 3, 2], [4], [4])]
    cases += [(three, [0, M, 1, 3], 7, 7), (three, [5, M, 3, 1], 7, 7), (three, [5, M, 2, 1], [6], [10])]
    cases += [(two, [0, M, 8, 3], [8], [8]), (two, [0, M, 9, 3], [8], [8]), (two, [0, M, 10, 3], 7, 7), (two, [0, M, 1, 4], [16], [16])]
    cases += [(none, [1, M, k, 63], due, due) for k, due in ((1, [2**63]), (2**63, [2**63]), (2**63 + 1, 7))]
    cases += [(none, [0, M, M, 63], [0], [0]), (none, [2**63 + 1, M, 1, 63], 7, 7)]
    cases += [(none, [M, M, 1, 0], [M], [M]), (none, [M, M, 1, 1], 7, 7)]
    # the gaps 1..8 and 16..20, and 8..11 and 13..16: a gap's length counts, not how many numbers it has from a multiple of 8 on
    cases += [([3, 0, 0, 9, 15, 21, M], [0, M, 1, 3], [8], [16]), ([3, 0, 7, 12, 12, 17, M], [0, M, 1, 3], [8], [8])]
    cases += [(three, [0, M, 2, j], 16, 16) for j in (64, 65, 2**32, 2**32 + 1, 2**63, M)]
    cases += [(three, [0, M, 0, 64], 6, 6), (three, [1, 0, 2, 64], 4, 4)]
    cases += [([1, 9, 5], [1, 0, 0, 64], 3, 3), ([1, 0, M], [0, M, 1, 64], 16, 16)]
    for block, args, first, best in cases:
        for which, due in (("first", first), ("best", best)):
            for name in (f"set_{which}_fit_aligned", f"set_reserve_{which}_aligned"):
                expect(f"{name} {args} of {block}", values(name, [block + [0, 0]], args), due)
    expect("no room", model.run("set_reserve_first_aligned", [[1, 5, 9]], [0, M, 2, 4])[:2], (16 + 5, (0, 0, 0, 0, 0)))
    expect("the place of Align", model.run("set_first_fit_aligned", [three], [0, M, 2, 64])[:2], (16 + 16, (0, 0, 0, 0, 0)))


def check_member_worked():
    """The worked numbers about where a number lies, of plain sets and at the keys of the same words; and that a refused question has no
    values."""
    two = [2, 5, 9, 20, 29]
    cases = [(two, x, [0, 0]) for x in (0, 4)] + [(two, x, [1, 0]) for x in (5, 9)] + [(two, x, [0, 1]) for x in (10, 12, 19)]
    cases += [(two, x, [1, 1]) for x in (20, 29)] + [(two, x, [0, 2]) for x in (30, M)]
    cases += [([0], x, [0, 0]) for x in (0, 7, M)] + [([1, 0, M], x, [1, 0]) for x in (0, 7, M)]
    cases += [([2, 0, 0, M, M], x, due) for x, due in ((0, [1, 0]), (1, [0, 1]), (M - 1, [0, 1]), (M, [1, 1]))]
    for block, x, due in cases:
        expect(f"member {x} of {block}", values("set_member", [block], [x]), due)
        expect(f"member {x} of {block}, as a key", values("signed_member", [block], [x - 2**63]), due)
    for name, x in (("set_member", 7), ("signed_member", -7)):
        for block, number in (([], 1), ([2, 5, 9], 2), ([1, 9, 5], 3), ([2, 5, 9, 10, 12], 3)):
            expect(f"{name} of {block}", model.run(name, [block], [x])[:2], (16 + number, (0, 0, 0, 0, 0)))


def check_others_worked():
    """The worked numbers G and J."""
    three = written("map_assign", [[1, 0, 9, 1, 0, 0, 0, 0, 0, 0]], [3, 5, 2])
    expect("G", three, [3, 0, 2, 1, 3, 5, 2, 6, 9, 1])
    expect("G", written("map_assign", [three], [3, 5, 1]), [1, 0, 9, 1, 0, 0, 0, 0, 0, 0])
    _, _, after = model.run("bulletin_fold", [[1, 1, 4], [0], [1, 9, 9], [1, 3, 3], [0] * 7, [0] * 3], [])
    expect("J", after[4:], [[3, 1, 2, 4, 4, 9, 9], [1, 3, 3]])


OLD_H = bytes.fromhex("C53A0100010402 C53A10 0000000000000005 0000000000000009 471E")
NEW_H = bytes.fromhex("C53B010001EB8D C53B10 0000000000000005 0000000000000009 3F08")


def check_bytes_worked():
    """The worked numbers H, I and O of both marks, and published examples of both checks."""
    for what, form, last in (("old H", OLD_H, b"\x1f"), ("new H", NEW_H, b"\x09")):
        expect(what, written("set_read", [form, [7, 7, 7]]), [1, 5, 9])
        expect(what + ", 7 in it", model.run("member", [form], [7])[0], 1)
        expect(what + ", last byte", model.run("set_judge_form", [form[:-1] + last], [])[:2], (27, (7, 0, 0, 0, 0)))
    expect("new H", written("set_write", [[1, 5, 9], bytearray(28)], [0]), NEW_H)
    expect("old H read and written", written("set_write", [written("set_read", [OLD_H, [7, 7, 7]]), bytearray(28)], [0]), NEW_H)
    for form in (OLD_H[:7] + NEW_H[7:], NEW_H[:7] + OLD_H[7:]):
        expect("a mark that differs from the first", model.run("set_judge_form", [form], [])[:2], (25, (7, 0, 0, 0, 0)))
    expect("I", written("set_write", [[0], bytearray(7)], [0]), bytes.fromhex("C53B010000FBAC"))
    for form in (bytes.fromhex("C53A0100000301"), bytes.fromhex("C53B010000FBAC")):
        expect("I", written("set_read", [form, [7]]), [0])
    for mark, checks in ((OLD, "1110 1110"), (NEW, "D9ED 7F0C")):
        pieces = [model.record(model.RANGE, (0, high), 8, mark) for high in (0, M)]
        expect("O", b"".join(piece[-2:] for piece in pieces), bytes.fromhex(checks))
    for text, check in ((b"abcde", "C8F0"), (b"abcdef", "2057"), (b"abcdefgh", "0627")):
        expect("Fletcher", model.check_bytes(text, OLD), bytes.fromhex(check))
    expect("CRC", model.check_bytes(b"123456789", NEW), bytes.fromhex("29B1"))
    rng = random.Random(20260401)
    for length in range(200):
        text = rng.randbytes(length)
        expect("CRC of any bytes", int.from_bytes(model.check_bytes(text, NEW), "big"), binascii.crc_hqx(text, 0xFFFF))


SOME = {"set": [[(5, 9), (20, M)]], "signed": [[(0, 9), (2**63 - 2, 2**63 + 1)]], "map": [[(0, 9, 1), (10, 10, M)]]}
SOME |= {"bulletin": [[(0, 0), (M, M)], [(5, 9)]]}


def reading(kind):
    """The calls that read forms of a kind, each with what else it is lent and its arguments."""
    listed = [(kind + "_read", [[7] * 9] * (2 if kind == "bulletin" else 1), [])]
    return listed + [("set_judge_form", [], []), ("member", [], [0])] if kind == "set" else listed


def check_marks():
    """Of a form of each kind and mark: with another mark at a record it is refused with 9 there, or, where that is the first and it has the
    other mark rightly checked, at the second; and with the other mark at all records it is taken."""
    rng = random.Random(20260402)
    for kind, lists in SOME.items():
        for name, outputs, args in reading(kind):
            for mark in (OLD, NEW):
                pieces = generate.split(refusals.form_of(kind, lists, mark))
                for i in range(len(pieces)):
                    for way in ("other", "neither"):
                        form = b"".join(generate.marked(rng, pieces, i, way))
                        due = len(b"".join(pieces[: max(i, way == "other")]))
                        status, answer, _ = model.run(name, [form, *outputs], args)
                        expect(f"{name}, {way} mark at record {i}", (status, (answer or [due])[0]), (25, due))
                    for short in range(3):
                        form = b"".join(pieces[:i]) + rng.randbytes(short)
                        expect(f"{name}, {short} bytes of record {i}", model.run(name, [form, *outputs], args)[0], 24)
                form = b"".join(generate.marked(rng, pieces, 0, "rest"))
                expect(f"{name}, the other form", model.run(name, [form, *outputs], args)[0] < 16, True)


def check_damage():
    """Of new forms of each kind, the empty ones too: with any one byte changed they are refused, wherever it is. Of old ones that is so but
    for 00 and FF, which count alike in a body."""
    for kind, lists in list(SOME.items()) + [(kind, [[] for _ in lists]) for kind, lists in SOME.items()]:
        name, outputs, args = reading(kind)[0]
        for mark in (OLD, NEW):
            form = refusals.form_of(kind, lists, mark)
            for at, byte in enumerate(form):
                for new in set(range(256)) - {byte}:
                    changed = form[:at] + bytes([new]) + form[at + 1 :]
                    if model.run(name, [changed, *outputs], args)[0] < 16:
                        expect(f"{name} accepts {changed.hex()}", (mark, {byte, new}), (OLD, {0, 0xFF}))
    zero, wide = (model.record(model.START_OF_SET, [1], 2, OLD) + model.record(model.RANGE, ends, 8, OLD) for ends in ((0, 0), (0, 255)))
    expect("00 and FF in the old form", [i for i in range(28) if zero[i] != wide[i]], [25])


def check_signed_worked():
    """Worked numbers about signed sets: around 0, at both ends of the line, and a form in both marks: the old one was computed by hand."""
    low, zero, high = 0, 2**63, M  # the words of -2^63, 0 and 2^63 - 1
    expect("to -1", written("signed_insert", [[0, 0, 0]], [-5, -1]), [1, zero - 5, zero - 1])
    expect("and from 0", written("signed_insert", [[1, zero - 5, zero - 1]], [0, 3]), [1, zero - 5, zero + 3])
    expect("all keys", written("signed_insert", [[0, 0, 0]], [-(2**63), 2**63 - 1]), [1, low, high])
    expect("no key below", values("signed_least_non_member", [[1, low, high]], [-(2**63)]), [])
    expect("-1 in an answer", values("signed_least_member", [[1, zero - 1, zero - 1]], [-(2**63)]), [M])
    expect("as keys", values("signed_window", [[1, low, high]], [0, -1]), 4)
    for a, b, apart in ((-1, 2**63 - 1, [2**63]), (0, -(2**63), []), (-2, 2**63 - 1, []), (-(2**63), -1, [2**63 + 1])):
        expect("difference", values("key_difference", [], [a, b]), apart)
    old = bytes.fromhex("C53A0400010D05 C53A14 FFFFFFFFFFFFFFFB 0000000000000003 3413")
    form = bytes.fromhex("C53B040001007D C53B14 FFFFFFFFFFFFFFFB 0000000000000003 9049")
    expect("form", written("signed_write", [[1, zero - 5, zero + 3], bytearray(28)], [0]), form)
    for each in (old, form):
        expect("form read", written("signed_read", [each, [7, 7, 7]]), [1, zero - 5, zero + 3])
    for name in ("set_read", "map_read", "signed_read"):
        start = {"set_read": form, "map_read": form, "signed_read": model.set_form([(5, 9)])}[name]
        expect("another kind", model.run(name, [start, [0] * 9], [])[:2], (26, (0, 0, 0, 0, 0)))
    two = model.signed_form([(-5, -1), (0, 3)])
    expect("touching", model.run("signed_read", [two, [0] * 9], [])[:2], (28, (28, 0, 0, 0, 0)))


def main():
    """The model's own check."""
    check_sets_worked()
    check_trays_worked()
    check_member_worked()
    check_prefixes_worked()
    check_most_prefixes()
    check_signed_worked()
    check_others_worked()
    check_bytes_worked()
    check_marks()
    check_damage()
    rounds = int(sys.argv[1]) if len(sys.argv) > 1 else 3000
    check_against_brute_force(rounds, 20240229)
    check_prefixes(rounds)
    print(f"selfcheck: the model agrees with brute force in {rounds} rounds, with the worked numbers and with Python's own CRC")


if __name__ == "__main__":
    main()
