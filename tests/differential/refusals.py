"""Which refusals each call can give, in the order of the requirements, and cases in which one of them, or two at once, apply.

A refusal of a call is a pair (number, where): where is a block's position, for bytes the record ('start', 'item' or 'later', in the
order in which they stand), or ''. `8<` is the refusal 8 of a record of which fewer than 3 bytes are left, `8` of one that is cut
later on. A case for the ordered pair (x, y) is only taken if without both the call is accepted and with y alone y is given: so both
apply, and x must be given.
"""

import random

import model
import shapes
from model import HALF, LIMIT, M, MAP, MAX, MIN, SET
from wire import Case

ARGS = {"x": ["set_member", "set_least_member", "set_least_non_member", "map_look_up", "map_site_over_factory", "member"]}
ARGS |= {"i": ["set_range_at"], "ab": ["set_window", "map_window", "set_insert", "set_remove", "map_erase"], "abv": ["map_assign"]}
ARGS |= {"abk": ["set_first_fit", "set_best_fit", "set_reserve_first", "set_reserve_best"]}
ARGS |= {"abkj": [name + "_aligned" for name in ARGS["abk"]]}
ARGS |= {"p": ["set_write", "map_write", "bulletin_write"]}
ARGS_OF = {name: style for style, names in ARGS.items() for name in names}
ARGS_OF |= {"signed" + name[3:]: style for name, style in ARGS_OF.items() if name.startswith("set") and "signed" + name[3:] in model.LENT}
PREFIXES = ("set_prefix_blocks", "set_audit_blocks")
ALIGNED = ARGS["abkj"]
RECORDS = ("start", "item", "later")
OF_RECORD = ("8<", 9, 10, 8, 11, 12)
TRIES = 400


def letters_of(name):
    """What the call is lent, without the arguments."""
    return model.LENT[name]


def is_signed(name):
    """Is the call one on signed sets?"""
    return name.startswith("signed")


def as_given(name, args):
    """A call's arguments, drawn in words as its blocks are: where they are keys, the keys of these words."""
    return [arg - HALF if letter == "s" else arg for letter, arg in zip(model.GIVEN[name], args)]


def kinds_of(name):
    """SET or MAP for each word block of a call."""
    if name == "map_restriction":
        return [MAP, SET, MAP]
    if name == "map_domain":
        return [MAP, SET]
    return [MAP if name.startswith("map") else SET for letter in letters_of(name) if letter in "ico"]


def reads_bytes(name):
    """Does the call read a byte form?"""
    return letters_of(name).startswith("b")


def refusals_of(name):
    """Every refusal that the call can give, in the order of the requirements."""
    letters = [letter for letter in letters_of(name) if letter in "ico"]
    inputs = [i for i, letter in enumerate(letters) if letter in "ic"]
    outputs = [i for i, letter in enumerate(letters) if letter == "o"]
    if name == "set_make_empty":
        return [(1, 0)]
    if reads_bytes(name):
        listed = [(number, where) for where in RECORDS for number in OF_RECORD] + [(13, "")]
        listed += [(14, "")] if name == "bulletin_read" else []
        return listed + [(number, i) for number in (1, 5) for i in outputs]
    style = ARGS_OF.get(name, "")
    listed = [(number, i) for i in inputs for number in (1, 2, 3)] + [(1, i) for i in outputs]
    listed += [(4, "")] if "ab" in style else []
    listed += [(6, "")] if "k" in style else []
    listed += [(16, "")] if "j" in style else []
    listed += [(14, "earlier"), (14, "later")] if name == "bulletin_fold" else [(14, "")] if "bulletin" in name else []
    listed += [(7, "")] if "k" in style else []
    listed += [(5, i) for i in outputs + ([0] if "c" in letters else [])]
    return listed + ([(15, "")] if style == "p" else [])


def number_of(refusal):
    """The number in the table of refusals."""
    return 8 if refusal[0] == "8<" else refusal[0]


def can_both_apply(x, y):
    """Can x, and y behind it in the order, both apply to one call?"""
    if x[1] == y[1] and x[0] == 1 and y[0] in (2, 3):
        return False  # a block without words has no count
    if x[0] not in ("8<", 8):
        return True
    # the bytes end there: nothing behind it in the form, and of the record itself only what is still there
    if x[1] == y[1]:
        return y[0] in ((9,) if x[0] == "8<" else (11, 12))
    return y[0] in (1, 5) or (y[0] == 14 and x[1] != "start")


def listed_pairs(name):
    """Every ordered pair of refusals that can both apply to a call."""
    listed = refusals_of(name)
    return [(x, y) for i, x in enumerate(listed) for y in listed[i + 1 :] if can_both_apply(x, y)]


# ---- calls on word blocks


def base_lists(name, rng):
    """Sound inputs with something in them, in words; a bulletin's two sets share nothing."""
    kinds = kinds_of(name)[: sum(letter in "ic" for letter in letters_of(name))]
    on_powers = (name in PREFIXES or name in ALIGNED) and rng.random() < 0.5
    lists = [shapes.aligned(rng, 3) if on_powers else shapes.fresh(rng, kinds[0], rng.randrange(2, 6))]
    if is_signed(name):
        lists = [shapes.about_zero(rng, lists[0])]
    for kind in kinds[1:]:
        near_first = rng.random() < 0.8
        lists.append(shapes.some_items(rng, kind, rng.randrange(2, 5), lists[:1] if near_first else ()))
    for released, withdrawn in bulletins_of(name):
        lists[withdrawn] = model.difference(lists[withdrawn], lists[released])
    return lists


def bulletins_of(name):
    """The positions of the released and the withdrawn set of each bulletin among a call's inputs."""
    return {"bulletin_apply": [(1, 2)], "bulletin_fold": [(0, 1), (2, 3)], "bulletin_write": [(0, 1)]}.get(name, [])


def sharing(released, withdrawn, rng):
    """The withdrawn set with a number of the released one in it, and that one with something in it."""
    released = released or [(7, 9)]
    x = rng.choice(shapes.points_of(released)[2:])
    return released, model.union(withdrawn, [(x, x)])


def shared_lists(name, lists, wants, rng):
    """The inputs with refusal 14 as wanted."""
    lists = list(lists)
    for (released, withdrawn), where in zip(bulletins_of(name), ("earlier", "later") if name == "bulletin_fold" else ("",)):
        if (14, where) in wants:
            lists[released], lists[withdrawn] = sharing(lists[released], lists[withdrawn], rng)
    return lists


def window_args(items, wants, pair, with_j, rng):
    """a, b and k of a fit, and j if it has one: with a gap that is wide enough, or without one (7); with j above 63 as wanted (16)."""
    a, b = sorted(shapes.near(rng, shapes.points_of(items)) for _ in "ab")
    if (7, "") in wants and ((6, "") in pair or rng.random() < 0.5):
        low, high = rng.choice(items)[:2]
        a, b = sorted((rng.randint(low, high), rng.randint(low, high)))
    found = model.gaps(items, a, b)
    j = shapes.exponent(rng, found) if with_j else 0
    longest = max([0] + [high - model.multiple(low, j) + 1 for low, high in found])
    k = rng.choice([1, longest, longest - 1, longest // 2])
    if (7, "") in wants:
        k = rng.choice([longest + 1, longest + 2, M])
    j = shapes.oversized(rng, j) if (16, "") in wants else j
    return [a, b, 0 if (6, "") in wants else max(1, min(M, k))] + ([j] if with_j else [])


def base_args(name, lists, wants, pair, rng):
    """The arguments of a call on word blocks, with refusals 4, 6, 16 and 7 as wanted; in words, also where they are to be keys."""
    style = ARGS_OF.get(name, "")
    points = shapes.points_of(*lists) + ([HALF] if is_signed(name) else [])
    if style == "x":
        return [shapes.near(rng, points)]
    if style == "i":
        return [rng.choice([0, 1, len(lists[0]) - 1, len(lists[0]), M])]
    if not style.startswith("ab"):
        return []
    if "k" in style:
        a, b, *others = window_args(lists[0], wants, pair, "j" in style, rng)
    else:
        a, b = sorted(shapes.near(rng, points) for _ in "ab")
        others = [shapes.number(rng)] if style == "abv" else []
    if (4, "") in wants:
        a, b = (b, a) if a < b else (a, b - 1) if b > 0 else (1, 0)
    return [a, b, *others]


def input_block(kind, items, position, wants, spare, rng):
    """An input block, with refusals 1, 2 and 3 as wanted. What is wrong with the items is the same whatever the count says."""
    if (1, position) in wants:
        return []
    broken = shapes.unsound(random.Random(rng.random()), kind, items)
    lent = shapes.block(rng, kind, broken if (3, position) in wants else items, spare)
    return shapes.overcounted(rng, kind, lent) if (2, position) in wants else lent


def output_block(kind, count, position, wants, rng):
    """An output for a result of `count` items, with refusals 1 and 5 as wanted; None if it cannot be too small."""
    if (1, position) in wants:
        return []
    if (5, position) in wants:
        return shapes.room_for(rng, kind, rng.choice([count - 1, rng.randrange(count)])) if count else None
    return shapes.room_for(rng, kind, count + rng.choice([0, 0, 1, 3]))


def widest(name, lists):
    """The words of an output with room for whatever these lists give."""
    ranges = sum(map(len, lists))
    return 1 + (2 * 126 * ranges if name in PREFIXES else MAP * (2 * ranges + 2))


def result_counts(name, lists, args):
    """How many items each output gets, where there is room."""
    kinds = kinds_of(name)
    outputs = len(kinds) - len(lists)
    if outputs == 0:
        return []
    _, _, after = model.run(name, [shapes.words(items) for items in lists] + [[0] * widest(name, lists)] * outputs, args)
    return [out[0] for out in after[len(lists) :]]


def buffer_and_place(size, wants, rng):
    """A byte buffer and p for a form of this size, with refusal 15 as wanted."""
    p = rng.choice([0, 0, 1, 5, 30])
    length = p + size + rng.choice([0, 0, 1, 9])
    if (15, "") in wants:
        wraps = rng.choice([(length, M), (length, M + 1 - size), (size, M + 2 - size)])
        length, p = rng.choice([(p + size - 1, p), (length, length), (length, length + 1), wraps, wraps, (0, 0)])
    return rng.randbytes(length), p


def form_of(name, lists, mark=model.NEW):
    """The byte form that a call writes or reads, of lists in words; of what it is, the first word of `name` says."""
    if is_signed(name):
        return model.signed_form(shapes.in_keys(lists[0]), mark)
    return {"map": model.map_form, "bulletin": model.bulletin_form}.get(name.split("_")[0], model.set_form)(*lists, mark)


def word_case(name, wants, pair, seed):
    """A call on word blocks to which the wanted refusals apply, if it works out; and the place of each."""

    def rng(part):
        """Each part is drawn by itself, so that what is wanted of one part changes no other."""
        return random.Random(f"{seed}/{part}")

    kinds = kinds_of(name)
    clean = base_lists(name, rng("lists"))
    args = as_given(name, base_args(name, clean, wants, pair, rng("args")))
    counts = result_counts(name, clean, args)
    lists = shared_lists(name, clean, wants, rng("sharing"))
    in_place = letters_of(name)[0] == "c"
    lent = []
    for i, items in enumerate(lists):
        spare = None if not in_place else 0 if (5, i) in wants else rng("spare").choice([2, 3, 5])
        lent.append(input_block(kinds[i], items, i, wants, spare, rng(f"block {i}")))
    for i, count in enumerate(counts, len(lists)):
        lent.append(output_block(kinds[i], count, i, wants, rng(f"block {i}")))
    if any(part is None for part in lent):
        return None, {}
    if ARGS_OF.get(name) == "p":
        data, p = buffer_and_place(len(form_of(name, lists)), wants, rng("buffer"))
        lent, args = lent + [data], [p]
    places = {want: want[1] if want[0] in (1, 2, 3, 5) else 0 for want in wants}
    return Case(name, lent, args, placement=rng("placement").randrange(2)), places


# ---- calls that read bytes


def wrong_mark(rng, due, first):
    """A mark that is not the one due: with a bit changed, the wrong way round, or any; of a later record often the other one of the two. The
    first record may have either."""
    other = model.NEW if due == model.OLD else model.OLD
    bit = bytearray(due)
    bit[rng.randrange(2)] ^= 1 << rng.randrange(8)
    ways = [bytes(bit), bytes(bit), due[::-1], rng.randbytes(2), other, other, other]
    return rng.choice([way for way in ways if way not in ((due, other) if first else (due,))])


def wrong_kind(rng, due):
    """A kind byte that is not the one due: often a known one, or one at the edge of the unknown."""
    known = [0x00, 0x01, 0x02, 0x03, 0x04, 0x05, 0x0F, 0x10, 0x11, 0x12, 0x13, 0x14, 0x15, 0xFF]
    return rng.choice([kind for kind in known * 8 + list(range(256)) if kind != due])


def bad_item(rng, item, before, least, most):
    """An item that breaks soundness, by itself or behind the one before it, on the line least..most."""
    low, high, *value = item
    above = max(low, least + 1)
    ways = [(high, low, *value) if low < high else (above, above - 1, *value)]
    if before is not None:
        touching = min(most, before[1] + 1)
        ways += [(touching, max(touching, high), *before[2:]), (before[1], max(high, before[1]), *value), tuple(before)]
        ways += [(before[0], high, *value), (least, least, *value)]
    ways = [way for way in ways if way[0] > way[1] or (before is not None and not model.follows(before, way))]
    return rng.choice(ways)


def spoiled_record(rng, kind, numbers, size, wants, bad, mark, first):
    """A record's bytes with refusals 9 to 12 as wanted; a wrong check is often the one of the other mark."""
    data = bytearray(model.record(kind, bad if 12 in wants else numbers, size, mark))
    if 10 in wants:
        data[2] = wrong_kind(rng, kind)
        if rng.random() < 0.5:
            data[-2:] = model.check_bytes(data[2:-2], mark)
    if 11 in wants:
        right = bytes(data[-2:])
        while data[-2:] == right:
            changed = [bytes([right[0] ^ 0x80, right[1]]), bytes([right[0], right[1] ^ 1]), right[::-1], rng.randbytes(2)]
            data[-2:] = rng.choice(changed + [model.check_bytes(data[2:-2], each) for each in model.CHECK])
    if 9 in wants:
        data[:2] = wrong_mark(rng, mark, first)
        if bytes(data[:2]) in model.CHECK and 11 not in wants and rng.random() < 0.5:
            data[-2:] = model.check_bytes(data[2:-2], data[:2])
    return bytes(data)


def cut_record(rng, data, wants):
    """A record that the bytes end in, with what else is wanted of it still to be seen."""
    if "8<" in wants:
        if 9 in wants:
            return bytes([data[0] ^ 0x10]) + data[1 : rng.choice([1, 2])]
        return data[: rng.randrange(3)]
    if 11 in wants:
        return data[:-2] + bytes([data[-2] ^ 0x40])
    return data[: -rng.choice([1, 2]) if 12 in wants else rng.randrange(3, len(data))]


def form_lists(name, wants, rng):
    """The items of a form, as they stand in it, clean and with refusal 14 as wanted: one list, or a bulletin's two."""
    if name != "bulletin_read":
        items = shapes.fresh(rng, MAP if name.startswith("map") else SET, rng.randrange(3, 6))
        return [shapes.in_keys(shapes.about_zero(rng, items)) if is_signed(name) else items]
    released = shapes.fresh(rng, SET, rng.randrange(2, 4))
    withdrawn = model.difference(shapes.some_items(rng, SET, rng.randrange(2, 4), [released]), released)
    shared = sharing(released, withdrawn, rng)
    return list(shared) if (14, "") in wants else [released, withdrawn]


def records_of(name, lists, rng):
    """Each record of a form: kind, numbers, the size of each, and numbers that break it."""
    start, kinds = {
        "signed_read": (model.START_OF_SIGNED, [model.SIGNED_RANGE]),
        "map_read": (model.START_OF_MAP, [model.ENTRY]),
        "bulletin_read": (model.START_OF_BULLETIN, [model.RELEASED, model.WITHDRAWN]),
    }.get(name, (model.START_OF_SET, [model.RANGE]))
    limit = LIMIT[MAP if name == "map_read" else SET]
    counts = [len(items) for items in lists]
    above = [rng.choice([limit + 1, limit + 2, 65535, rng.randint(limit + 1, 65535)]) if rng.random() < 0.6 else n for n in counts]
    above[rng.randrange(len(above))] = limit + 1 + rng.choice([0, 0, 1, 60000 - limit])
    line = (MIN, MAX) if is_signed(name) else (0, M)
    records = [(start, counts, 2, above)]
    for kind, items in zip(kinds, lists):
        for i, item in enumerate(items):
            records.append((kind, item, 8, bad_item(rng, item, items[i - 1] if i else None, *line)))
    return records


def form_bytes(records, spots, wants, mark, rng):
    """The bytes of the records with this mark and with what is wanted of those at the spots, and the place of each refusal."""
    data, places = b"", {}
    for i, (kind, numbers, size, bad) in enumerate(records):
        where = spots.get(i)
        here = {number for number, at in wants if at == where and where is not None}
        places |= {(number, where): len(data) for number in here}
        piece = spoiled_record(random.Random(rng.random()), kind, numbers, size, here, bad, mark, i == 0)
        if here & {"8<", 8}:
            return data + cut_record(rng, piece, here), places
        data += piece
    places[(13, "")] = len(data)
    if (13, "") in wants:
        another = [model.record(kind, (1, 2), 8, each) for kind in (model.RANGE, model.SIGNED_RANGE) for each in model.CHECK]
        data += rng.choice([b"\0", b"\xc5", rng.randbytes(rng.randrange(1, 30)), *another, data[:7]])
    return data, places


def form_case(name, wants, pair, seed):
    """A call that reads bytes, to which exactly the wanted refusals apply; and the place of each."""

    def rng(part):
        """Each part is drawn by itself, so that what is wanted of one part changes no other."""
        return random.Random(f"{seed}/{part}")

    lists = form_lists(name, wants, rng("lists"))
    records = records_of(name, lists, rng("records"))
    if len(records) < 3:
        return None, {}
    item = rng("spots").randrange(1, len(records) - 1)
    later = rng("spot").randrange(item + 1, len(records))
    data, places = form_bytes(records, {0: "start", item: "item", later: "later"}, wants, shapes.some_mark(rng("mark")), rng("bytes"))
    lent, kinds = [data], kinds_of(name)
    for i, kind in enumerate(kinds):
        lent.append(output_block(kind, len(lists[i]), i, wants, rng(f"block {i}")))
        places |= {(1, i): i, (5, i): i}
    if any(part is None for part in lent):
        return None, {}
    args = [shapes.near(rng("args"), shapes.points_of(*lists))] if name == "member" else []
    return Case(name, lent, args, placement=rng("placement").randrange(2)), places


# ---- a case for a refusal, or for two at once


def gives(case, refusal, place):
    """Does the model give this refusal at this place (None: is the call accepted)?"""
    status, answer, _ = model.run(case.name, case.lent, case.args)
    if refusal is None:
        return status < 16
    return status == 16 + number_of(refusal) and (answer is None or answer[0] == place)


def case_for(name, pair, seed):
    """A case to which all refusals of `pair` (one or two, in order) apply and the first must be given."""
    build = form_case if reads_bytes(name) else word_case
    for attempt in range(TRIES):
        tried = f"{seed}/{attempt}"
        steps = [((), None), (pair[-1:], pair[-1]), (pair, pair[0])]
        built = [(*build(name, wants, pair, tried), first) for wants, first in steps]
        if all(case is not None and gives(case, first, places.get(first, 0)) for case, places, first in built):
            return built[-1][0]
    raise SystemExit(f"differential: no case of {name} found to which {pair} apply; is the model's order that of the requirements?")
