"""Random cases of every call, cases at the limits of 4,095 ranges and 2,730 entries, of mixed marks, of trays, and of prefix blocks."""

import random

import model
import refusals
import shapes
from model import HALF, LIMIT, M, MAP, SET
from refusals import ALIGNED, ARGS_OF, PREFIXES, as_given, bulletins_of, form_of, is_signed, kinds_of, letters_of, reads_bytes, widest
from wire import Case

COUNTS = [0, 1, 1, 2, 2, 3, 3, 4, 5, 6, 8, 12, 30]


def some_lists(name, rng):
    """Sound inputs, in words: the first of any sort, the others mostly with ends near it; a bulletin's sets mostly share nothing."""
    kinds = kinds_of(name)[: sum(letter in "ic" for letter in letters_of(name))]
    lists = []
    for kind in kinds:
        if lists and kind == kinds[0] and rng.random() < 0.08:
            lists.append(lists[0])
        elif (name in PREFIXES or name in ALIGNED) and rng.random() < 0.6:
            lists.append(shapes.aligned(rng, rng.choice(COUNTS)))
        else:
            lists.append(shapes.some_items(rng, kind, rng.choice(COUNTS), lists))
    for released, withdrawn in bulletins_of(name):
        if rng.random() < 0.9:
            lists[withdrawn] = model.difference(lists[withdrawn], lists[released])
    return [shapes.about_zero(rng, items) for items in lists] if is_signed(name) else lists


def some_k(rng, found, j):
    """The length of a run: about as long as one of the gaps that were found, or as what of it is not below a multiple of 2^j; or anything."""
    lengths = [high - start + 1 for low, high in found for start in sorted({low, model.multiple(low, j)}) if start <= high]
    if not lengths or rng.random() < 0.15:
        return shapes.number(rng)
    return shapes.clipped(rng.choice([1, 2, 3] + lengths * 2) + rng.choice([-1, 0, 0, 0, 1]))


def some_range(rng, items, points):
    """a and b at or next to the points, or within one item; seldom backwards."""
    wide = [item for item in items if item[1] - item[0] > 1]
    if wide and rng.random() < 0.12:
        low, high = rng.choice(wide)[:2]
        return sorted((rng.randint(low + 1, high - 1), rng.randint(low + 1, high - 1)))
    a, b = shapes.near(rng, points), shapes.near(rng, points)
    return (b, a) if a > b and rng.random() < 0.93 else (a, b)


def some_args(name, rng, lists):
    """Arguments, mostly at or next to the ends of the inputs' items; in words, also where they are to be keys."""
    style = ARGS_OF.get(name, "")
    points = shapes.points_of(*lists) + ([HALF, shapes.key(rng) + HALF] if is_signed(name) else [shapes.number(rng)])
    if style == "x":
        return [shapes.near(rng, points)]
    if style == "i":
        return [rng.choice([0, 1, len(lists[0]) // 2, max(1, len(lists[0])) - 1, len(lists[0]), shapes.number(rng)])]
    if not style.startswith("ab"):
        return []
    a, b = some_range(rng, lists[0], points)
    if "k" in style:
        found = model.gaps(lists[0], a, b) if a <= b else []
        j = shapes.exponent(rng, found) if "j" in style else 0
        k = some_k(rng, found, j)
        if "j" not in style:
            return [a, b, k]
        return [a, b, k, shapes.oversized(rng, j) if rng.random() < 0.1 else j]  # [A2] now and then above 63
    values = [item[2] for items in lists for item in items if len(item) == MAP] + [shapes.number(rng)]
    return [a, b] + ([rng.choice(values)] if style == "abv" else [])


def some_input(rng, kind, items):
    """An input block, seldom not sound."""
    chance = rng.random()
    if chance < 0.015:
        return []
    if chance < 0.05:
        return shapes.block(rng, kind, shapes.unsound(rng, kind, items))
    lent = shapes.block(rng, kind, items)
    return shapes.overcounted(rng, kind, lent) if chance < 0.07 else lent


def some_output(rng, kind, count):
    """An output: with room for exactly the result, for one item fewer, or more; seldom with no words."""
    chance = rng.random()
    if chance < 0.02:
        return []
    if chance < 0.17:
        return shapes.room_for(rng, kind, max(0, count - 1))
    return shapes.room_for(rng, kind, count + rng.choice([0, 0, 0, 1, 2, 7]))


def some_buffer(rng, size):
    """A byte buffer and a place p, for a form of this size."""
    p = rng.choice([0, 0, 1, 2, 7, rng.randrange(60)])
    length = p + size + rng.choice([-2, -1, 0, 0, 0, 1, 2, 20])
    if rng.random() < 0.15:
        p = rng.choice([length - 1, length, length + 1, M, M - 1, M + 1 - size, M + 2 - size, shapes.number(rng)])
    return rng.randbytes(max(0, length)), max(0, p)


def one_memory(rng, name, lent):
    """The call's inputs with, now and then, a later one in the memory of an earlier one: the same block is lent twice."""
    inputs = [i for i, letter in enumerate(letters_of(name)) if letter == "i"]
    same = [0] * len(lent)
    if len(inputs) > 1 and rng.random() < 0.08:
        first, second = sorted(rng.sample(inputs, 2))
        lent, same[second] = list(lent), first + 1
        lent[second] = lent[first]
    return lent, same


def word_case(name, rng):
    """A random call on word blocks."""
    kinds = kinds_of(name)
    lists = some_lists(name, rng)
    args = as_given(name, some_args(name, rng, lists))
    blocks = [some_input(rng, kind, items) for kind, items in zip(kinds, lists)]
    counts = [0] * (len(kinds) - len(lists))
    blocks, same = one_memory(rng, name, blocks)
    if counts:
        status, _, after = model.run(name, blocks + [[0] * (widest(name, lists) + 120) for _ in counts], args)
        counts = [out[0] if status == 0 else rng.randrange(4) for out in after[len(blocks) :]]
    blocks += [some_output(rng, kind, count) for kind, count in zip(kinds[len(lists) :], counts)]
    if ARGS_OF.get(name) == "p":
        data, p = some_buffer(rng, len(form_of(name, lists)))
        blocks, args = blocks + [data], [p]
    return Case(name, blocks, args, same + [0] * (len(blocks) - len(same)), rng.randrange(2))


# ---- bytes

FORMS = ["set", "signed", "map", "bulletin"]


def form_kind(name):
    """The kind of form that a call reads."""
    return "set" if name == "member" else name.split("_")[0]


def split(form):
    """The records of a form."""
    pieces, at = [], 0
    while at < len(form):
        size = 5 + model.BODY[form[at + 2]]
        pieces.append(form[at : at + size])
        at += size
    return pieces


def rechecked(piece):
    """A record with the check of its mark computed anew."""
    return piece[:-2] + model.check_bytes(piece[2:-2], piece[:2])


def other_mark(mark):
    """The other one of the two marks."""
    return model.NEW if mark == model.OLD else model.OLD


MARKED = ["other", "kept", "neither", "rest"]


def marked(rng, pieces, i, way):
    """The records of a form with another mark at record i: the other one, with its check or with the check that was there, or neither of the
    two; or with the other one, rightly checked, from record i on."""
    other = other_mark(pieces[0][:2])
    if way == "rest":
        return pieces[:i] + [rechecked(other + piece[2:]) for piece in pieces[i:]]
    if way == "neither":
        piece = refusals.wrong_mark(rng, pieces[i][:2], True) + pieces[i][2:]
    else:
        piece = other + pieces[i][2:]
    return pieces[:i] + [rechecked(piece) if way == "other" else piece] + pieces[i + 1 :]


def changed_bytes(rng, form):
    """The form with one or two bytes or bits changed, cut, or with bytes behind it."""
    data = bytearray(form)
    way = rng.randrange(5)
    if way == 0:
        return bytes(data[: rng.randrange(len(data))])
    if way == 1:
        return bytes(data) + rng.choice([b"\0", b"\xff", rng.randbytes(rng.randrange(1, 40)), bytes(data[-21:])])
    for _ in range(1 if way < 4 else 2):
        i = rng.randrange(len(data))
        data[i] = rng.choice([data[i] ^ (1 << rng.randrange(8)), rng.randrange(256), data[i] ^ 0xFF, 0, 0xFF])
    return bytes(data)


def cut_in_two(rng, pieces):
    """The records of a form with an item as two that touch, and counted so: the same numbers, but no form. Keys are cut at 0."""
    items = [model.numbers_in(piece[3:-2], 8, piece[2] == model.SIGNED_RANGE) for piece in pieces[1:]]
    wide = [i for i, item in enumerate(items, 1) if item[0] < item[1]]
    if not wide:
        return pieces
    i = rng.choice([i for i in wide if items[i - 1][0] < 0 <= items[i - 1][1]] or wide)
    kind, (low, high, *value) = pieces[i][2], items[i - 1]
    cut = -1 if low < 0 <= high else rng.randrange(low, high)
    halves = [model.record(kind, (*ends, *value), 8, pieces[0][:2]) for ends in ((low, cut), (cut + 1, high))]
    at = 5 if kind == model.WITHDRAWN else 3
    count = int.from_bytes(pieces[0][at : at + 2], "big") + 1
    start = rechecked(pieces[0][:at] + count.to_bytes(2, "big") + pieces[0][at + 2 :])
    return [start, *pieces[1:i], *halves, *pieces[i + 1 :]]


def changed_records(rng, form):
    """The form with records exchanged, left out, doubled, cut in two, of another kind, mark, count or content, mostly rightly checked."""
    pieces = split(form)
    i, j = rng.randrange(len(pieces)), rng.randrange(len(pieces))
    way = rng.randrange(9)
    if way == 0:
        pieces[i], pieces[j] = pieces[j], pieces[i]
    elif way == 1:
        del pieces[i]
    elif way == 2:
        pieces.insert(j, pieces[i])
    elif way == 3:
        pieces[i] = rechecked(pieces[i][:2] + bytes([refusals.wrong_kind(rng, pieces[i][2])]) + pieces[i][3:])
    elif way == 4:
        count = rng.choice([0, 1, len(pieces), len(pieces) - 2, 2730, 2731, 4095, 4096, 65535, rng.randrange(65536)]) % 65536
        at = rng.choice([3, 5]) if len(pieces[0]) == 9 else 3
        pieces[0] = rechecked(pieces[0][:at] + count.to_bytes(2, "big") + pieces[0][at + 2 :])
    elif way == 8:
        pieces = marked(rng, pieces, i, rng.choice(MARKED))
    elif way > 5:
        pieces = cut_in_two(rng, pieces)
    else:
        body = bytearray(pieces[i])
        body[rng.randrange(3, len(body) - 2)] = rng.choice([0, 1, 0xFF, rng.randrange(256)])
        pieces[i] = rechecked(bytes(body))
    return b"".join(pieces)


def some_form(kind, rng, mark):
    """A form of a kind and a mark, and its items, in words."""
    if kind == "bulletin":
        released = shapes.some_items(rng, SET, rng.choice(COUNTS))
        withdrawn = shapes.some_items(rng, SET, rng.choice(COUNTS), [released])
        if rng.random() < 0.9:
            withdrawn = model.difference(withdrawn, released)
        return model.bulletin_form(released, withdrawn, mark), [released, withdrawn]
    items = shapes.some_items(rng, MAP if kind == "map" else SET, rng.choice(COUNTS))
    items = shapes.about_zero(rng, items) if kind == "signed" else items
    return form_of(kind, [items], mark), [items, items]


def form_case(name, rng):
    """A random call that reads bytes: a form of the kind that is asked for or now and then of another, a damaged form, or any bytes."""
    mark = shapes.some_mark(rng)
    form, lists = some_form(form_kind(name) if rng.random() < 0.95 else rng.choice(FORMS), rng, mark)
    chance = rng.random()
    if chance < 0.03:
        form = rng.choice([b"", rng.randbytes(rng.randrange(60)), mark, mark + rng.randbytes(rng.randrange(30))])
    elif chance < 0.35:
        form = changed_bytes(rng, form)
    elif chance < 0.65:
        form = changed_records(rng, form)
    blocks = [some_output(rng, kind, len(items)) for kind, items in zip(kinds_of(name), lists)]
    args = [shapes.near(rng, shapes.points_of(*lists))] if name == "member" else []
    return Case(name, [form] + blocks, args, placement=rng.randrange(2))


def foreign_case(name, kind, seed):
    """A call that reads bytes, on a sound form of another kind, or on one whose start is of the right kind and the rest of the other."""
    rng = random.Random(seed)
    mark = shapes.some_mark(rng)
    other, own = (split(some_form(each, rng, mark)[0]) for each in (kind, form_kind(name)))
    start = own[0] if rng.random() < 0.5 else other[0]
    blocks = [shapes.room_for(rng, width, 40) for width in kinds_of(name)]
    args = [shapes.number(rng)] if name == "member" else []
    return Case(name, [b"".join([start, *other[1:]])] + blocks, args, placement=rng.randrange(2))


def mark_case(name, mark, i, way, seed):
    """[C3] A call that reads bytes, on a form of four items and a mark, old or new, in which record i, or each from it on, has another one."""
    rng = random.Random(seed)
    kind = form_kind(name)
    items = shapes.fresh(rng, MAP if kind == "map" else SET, 4)
    items = shapes.about_zero(rng, items) if kind == "signed" else items
    lists = [items[::2], items[1::2]] if kind == "bulletin" else [items]
    form = form_of(kind, lists, model.OLD if mark == "old" else model.NEW)
    blocks = [shapes.room_for(rng, width, 4) for width in kinds_of(name)]
    args = [shapes.near(rng, shapes.points_of(items))] if name == "member" else []
    return Case(name, [b"".join(marked(rng, split(form), i, way))] + blocks, args, placement=rng.randrange(2))


# ---- at every place of a list


def placed(name, rng, count, place):
    """So many items, and a number just below one of them, its low, its high, or just above it: each four places are an item's."""
    items = shapes.fresh(rng, (kinds_of(name) or [SET])[0], count)
    items = shapes.about_zero(rng, items) if is_signed(name) else items
    low, high = items[place // 4][:2]
    return items, shapes.clipped([low - 1, low, high, high + 1][place % 4])


def place_case(name, count, place, seed):
    """[L1, W1, W3] A call that searches, on a list of so many items: for the number at a place. A window or a change is of that number alone.
    The range at an index is a neighbour of that number, or holds it: the next below it at the first of an item's places, and at the others
    the one at the index that is told with the membership of the number."""
    rng = random.Random(seed)
    items, x = placed(name, rng, count, place)
    if name == "member":
        return Case(name, [form_of(name, [items], shapes.some_mark(rng))], [x], placement=rng.randrange(2))
    lists = [items] + some_lists(name, rng)[1:]
    index = sum(item[1] < x for item in items) - (1 if place % 4 == 0 else 0)
    given = {"x": [x], "i": [index % 2**64], "ab": [x, x], "abv": [x, x, shapes.number(rng)]}[ARGS_OF[name]]
    return Case(name, [shapes.block(rng, kind, each) for kind, each in zip(kinds_of(name), lists)], as_given(name, given), placement=rng.randrange(2))


BEGUN = ["fits", "too long", "far"]


def begun_case(name, count, place, way, seed):
    """[L1, W2] A fit, on a list of so many ranges, in a window that begins at the number at a place: up to the end of the first gap from there on,
    which the run just fills or is a number too long for; or far up, for a run about as long as one of the gaps. A tray fills the gap from its
    first multiple on."""
    rng = random.Random(seed)
    items, a = placed(name, rng, count, place)
    low, high = (model.gaps(items, a, M) or [(M, M)])[0]
    j = shapes.exponent(rng, [(low, high)]) if name in ALIGNED else 0
    while model.multiple(low, j) > high:
        j -= 1
    k = high - model.multiple(low, j) + 1 + (way == "too long")
    if way == "far":
        high = rng.choice([M, max(a, shapes.near(rng, shapes.points_of(items)))])
        k = some_k(rng, model.gaps(items, a, high), j)
    given = [a, high, max(1, min(M, k))] + ([j] if name in ALIGNED else [])
    return Case(name, [shapes.block(rng, SET, items)], as_given(name, given), placement=rng.randrange(2))


# ---- trays


BARE = "bare"  # a gap of just as many numbers as the run has, wherever its multiples lie
TRAYS = [(j, beside, room) for j in range(64) for beside in (-1, 0, 1) for room in (-1, 0, 1, BARE)]


def gap_about(at, j, k, beside, room):
    """A gap that begins `beside` the multiple `at` of 2^j, with so many numbers more than a run of k takes from its first multiple on."""
    low = at + beside
    return low, (low if room == BARE else model.multiple(low, j) + room) + k - 1


def gaps_about(rng, j, k, beside, room):
    """Up to three gaps: the first as asked, the others such that the shorter one often has more numbers from its first multiple on. All of
    them are at the line's low end, anywhere, or at its high end, where they may be cut."""
    found = [gap_about(0, j, k, beside, room)]
    for _ in range(rng.randrange(3)):
        at = model.multiple(found[-1][1] + 3, j) + rng.choice([0, 0, 2**j])
        found.append(gap_about(at, j, k, rng.choice([-1, 0, 1]), rng.choice([-1, 0, 0, 1, 2])))
    last = max(0, M - found[-1][1]) >> j
    shift = rng.choice([0, 1, rng.randrange(last + 1), last, last + 1]) << j
    found = [(max(0, low + shift), min(M, high + shift)) for low, high in found]
    return [(low, high) for low, high in found if low <= high]


def tray_case(name, j, beside, room, seed):
    """[A1, A3, A4, A5, A6] A fit of a run that starts at a multiple of 2^j, where all free numbers are in gaps about such multiples; or where
    the ends of the window cut the gaps so."""
    rng = random.Random(seed)
    k = max(1, rng.choice([1, 2, 3, 2**j - 1, 2**j, 2**j + 1, 2**j // 3, rng.randrange(3 * 2**j)]))
    found = gaps_about(rng, j, k, beside, room)
    ranges, a, b = model.complement(found), 0, M
    if found and rng.random() < 0.5:
        a, b = found[0][0], found[-1][1]
        ranges = model.intersection(ranges, [(a, b)]) if rng.random() < 0.7 else ranges
    return Case(name, [shapes.block(rng, SET, ranges)], [a, b, min(M, k), j], placement=rng.randrange(2))


# ---- prefix blocks


ENOUGH = "enough"  # an output with as many words as are enough for any set of so many ranges, 126 pairs a range, or one beside


def pairs_case(name, rng, ranges, lent, more):
    """A call on these ranges, lent so, into an output with so many words more than its pairs need, or with enough for any."""
    words = 252 * len(ranges) + rng.choice([0, 1, 2]) if more == ENOUGH else 1 + 2 * len(model.prefixes(ranges)) + more
    out = shapes.garbage(rng, max(0, words))
    return Case(name, [lent, out], placement=rng.randrange(2))


def power_case(name, e, i, j, seed):
    """[P1, P3, P4, P6] A range about one prefix block of 2^e numbers, at 0, at M or anywhere: from its first number plus i to its last plus j.
    The output has exactly enough words, a word fewer or more, or enough for any range, or a word beside."""
    rng = random.Random(seed)
    start = rng.choice([0, 2**64 - 2**e, rng.getrandbits(64) >> e << e])
    low, high = max(0, start + i), min(M, start + 2**e - 1 + j)
    ranges = [(low, high)] if low <= high else []
    return pairs_case(name, rng, ranges, shapes.block(rng, SET, ranges), rng.choice([-1, 0, 0, 1, 8, ENOUGH, ENOUGH]))


MANY = ["full", "wide", 4095, 4096, 4097]


def many_pairs(way, rng):
    """Ranges with many prefix blocks: as many ranges as a set may have; some that are wide; or with exactly so many, from 4,095 to 4,097."""
    if way == "full":
        return shapes.fresh(rng, SET, LIMIT[SET] - rng.choice([0, 0, 1]), rng.choice([2, 3, 40]))
    if way == "wide":
        n = rng.randrange(100, 130)
        return shapes.fresh(rng, SET, n, M // (3 * n + 3))
    singles = [(2 * x, 2 * x) for x in range(4094)]
    return singles + [(2**40 + 5, 2**40 + 5 + 2 * (way - 4095))]  # 5, 5..7 or 5..9 from 2^40 on: one, two or three more


def long_case(name, way, more, seed):
    """[P2, P7] Many prefix blocks: into an output with so many words more than they need, or with as many as a full set has."""
    rng = random.Random(seed)
    ranges = many_pairs(way, rng)
    if more is None:
        return Case(name, [long_memory(rng, SET, ranges), long_memory(rng, SET, [])], placement=rng.randrange(2))
    return pairs_case(name, rng, ranges, shapes.block(rng, SET, ranges), more)


# ---- keys by themselves


def key_case(name, rng):
    """A call that is lent nothing: on keys, often next to one another or just too far apart, or on a word."""
    a = shapes.key(rng)
    b = shapes.key(rng) if rng.random() < 0.4 else a - rng.choice([0, HALF - 1, HALF, -HALF, 1 - HALF]) + rng.randrange(-2, 3)
    if name == "key_of_word":
        return Case(name, [], [shapes.number(rng) if rng.random() < 0.3 else a + HALF])
    return Case(name, [], [a, max(model.MIN, min(model.MAX, b))][: len(model.GIVEN[name])])


def random_case(name, seed):
    """A random case of a call."""
    rng = random.Random(seed)
    if not letters_of(name):
        return key_case(name, rng)
    return form_case(name, rng) if reads_bytes(name) else word_case(name, rng)


# ---- at the limits


def long_memory(rng, kind, items):
    """A block of about as many items as the limit allows, in memory that is just long enough or longer."""
    least = 1 + kind * max(len(items), LIMIT[kind] - 1)
    lent = shapes.words(items)
    lent += [rng.choice([0, 5, M])] * (max(least, rng.choice([8190, 8191, 8192, 8193, 8194, 8230])) - len(lent))
    if rng.random() < 0.1:
        lent[0] = LIMIT[kind] + 1
    return lent


def long_lists(kinds, rng):
    """Lists at the limit: one that is full or nearly, or two that share out a full one or one item more."""
    limit = min(LIMIT[kind] for kind in kinds)
    whole = shapes.fresh(rng, kinds[0], limit - rng.choice([0, 0, 1]) if len(kinds) == 1 else limit + rng.choice([0, 0, 1]))
    if len(kinds) == 1:
        return [whole]
    share = rng.choice([0.001, 0.3, 0.5, 0.9])
    chosen = [rng.random() < share for _ in whole]
    lists = [[item for item, first in zip(whole, chosen) if first == which] for which in (True, False)]
    lists = [[item[:2] for item in items] if kind == SET else items for kind, items in zip(kinds, lists)]
    return lists + [[] if rng.random() < 0.5 else shapes.fresh(rng, kind, 3) for kind in kinds[2:]]


def limit_case(name, seed):
    """A case with about as many items as the limit allows."""
    rng = random.Random(seed)
    kinds, letters = kinds_of(name), letters_of(name)
    if not letters:
        return key_case(name, rng)
    if name in PREFIXES:
        return long_case(name, rng.choice(MANY), None, seed)
    if reads_bytes(name):
        kind = MAP if name.startswith("map") else SET
        items = shapes.fresh(rng, kind, LIMIT[kind] + rng.choice([0, 0, 0, 1, -1]))
        items = shapes.about_zero(rng, items) if is_signed(name) else items
        few, mark = shapes.fresh(rng, SET, 2), shapes.some_mark(rng)
        if name == "bulletin_read":
            form = model.bulletin_form(*rng.choice([(items, model.difference(few, items)), (model.difference(few, items), items)]), mark)
        else:
            form = form_of(name, [items], mark)
        lent = [form] + [long_memory(rng, k, []) for k in kinds]
        return Case(name, lent, [shapes.near(rng, shapes.points_of(items))] if name == "member" else [])
    inputs = kinds[: sum(letter in "ic" for letter in letters)]
    lists = long_lists(inputs, rng)
    lists = [shapes.about_zero(rng, items) for items in lists] if is_signed(name) else lists
    lent = [long_memory(rng, kind, items) for kind, items in zip(inputs, lists)]
    lent += [long_memory(rng, kind, []) for kind in kinds[len(inputs) :]]
    args = as_given(name, some_args(name, rng, lists))
    if ARGS_OF.get(name) == "p":
        data, p = some_buffer(rng, len(form_of(name, lists)))
        lent, args = lent + [data], [p]
    return Case(name, lent, args, placement=rng.randrange(2))
