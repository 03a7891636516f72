"""The library's calls in plain Python, written from the requirements and their readings alone.

A set is a sorted list of ranges (low, high), a map a sorted list of entries (low, high, value). A signed set is a list of ranges of
keys, which are Python numbers from MIN to MAX. Each call takes what is lent, blocks as lists of words and buffers as bytes, and the
arguments, in the order of the header. `run` answers with the status, the other words of the answer and what every lent block and
buffer holds afterwards. Nothing here is borrowed from the library's own definitions.
"""

from bisect import bisect_right

M = 2**64 - 1
HALF = 2**63  # how far a key's word is above the key
MIN, MAX = -HALF, HALF - 1  # the least and the greatest key
SET, MAP = 2, 3  # the words an item takes
LIMIT = {SET: 4095, MAP: 2730}
OLD, NEW = bytes([0xC5, 0x3A]), bytes([0xC5, 0x3B])  # the two marks: both are read, the new one is written
START_OF_SET, START_OF_MAP, START_OF_BULLETIN, START_OF_SIGNED = 0x01, 0x02, 0x03, 0x04
RANGE, ENTRY, RELEASED, WITHDRAWN, SIGNED_RANGE = 0x10, 0x11, 0x12, 0x13, 0x14
BODY = {START_OF_SET: 2, START_OF_MAP: 2, START_OF_BULLETIN: 4, START_OF_SIGNED: 2}
BODY |= {RANGE: 16, ENTRY: 24, RELEASED: 16, WITHDRAWN: 16, SIGNED_RANGE: 16}


class Refused(Exception):
    """A refusal: its number in the table of refusals, and its place."""

    def __init__(self, number, place):
        super().__init__(number, place)
        self.number = number
        self.place = place


# ---- blocks of words


def capacity(kind, length):
    """The capacity of a block of `length` words, at least 1."""
    return min((length - 1) // kind, LIMIT[kind])


def follows(before, item):
    """May `item` stand right behind the item `before` in a sound block?"""
    if len(item) == SET:
        return item[0] >= before[1] + 2
    return item[0] > before[1] and (item[0] != before[1] + 1 or item[2] != before[2])


def sound_items(items):
    """Is each low at most its high, and does each item but the first follow the one before it?"""
    return all(item[0] <= item[1] for item in items) and all(follows(a, b) for a, b in zip(items, items[1:]))


def items_of(kind, block):
    """The items of the stored form, read as word 0 says."""
    return [tuple(block[1 + kind * i : 1 + kind * (i + 1)]) for i in range(block[0])]


def judged(kind, block, position):
    """The items of an input block, or its refusal: 1, 2, 3."""
    if len(block) == 0:
        raise Refused(1, position)
    if block[0] > capacity(kind, len(block)):
        raise Refused(2, position)
    items = items_of(kind, block)
    if not sound_items(items):
        raise Refused(3, position)
    return items


def has_words(block, position):
    """Refusal 1 of an output."""
    if len(block) == 0:
        raise Refused(1, position)


def has_room(kind, block, items, position):
    """Refusal 5: the result has more items than the written block's capacity."""
    if len(items) > capacity(kind, len(block)):
        raise Refused(5, position)


def store(block, items):
    """Writes the stored form; every later word is 0, to the block's end."""
    words = [len(items)] + [word for item in items for word in item]
    block[:] = words + [0] * (len(block) - len(words))


# ---- sets and maps: cut the line at all ends and ask each piece for itself; numbers or keys, it is the same


def value_at(items, lows, x):
    """What x has in the list: nothing (None), membership of a set (True), or the value of its entry."""
    i = bisect_right(lows, x) - 1
    if i < 0 or x > items[i][1]:
        return None
    return items[i][2] if len(items[i]) == MAP else True


def combined(kind, decide, *lists):
    """The sound items of the set or map that `decide` says, from what a number has in each of the lists: nothing, if in none of them."""
    cuts = set()
    for items in lists:
        cuts.update(item[0] for item in items)
        cuts.update(item[1] + 1 for item in items)
    cuts = sorted(cuts)
    lows = [[item[0] for item in items] for items in lists]
    result = []
    for low, after in zip(cuts, cuts[1:]):
        value = decide(*(value_at(items, ends, low) for items, ends in zip(lists, lows)))
        if value is None or value is False:
            continue
        if result and result[-1][1] + 1 == low and (kind == SET or result[-1][2] == value):
            low = result.pop()[0]
        result.append((low, after - 1) if kind == SET else (low, after - 1, value))
    return result


def union(one, two):
    """The numbers of either."""
    return combined(SET, lambda p, q: p is not None or q is not None, one, two)


def intersection(one, two):
    """The numbers of both."""
    return combined(SET, lambda p, q: p is not None and q is not None, one, two)


def difference(one, two):
    """The numbers of the first that are not in the second."""
    return combined(SET, lambda p, q: p is not None and q is None, one, two)


def symmetric_difference(one, two):
    """The numbers of exactly one."""
    return combined(SET, lambda p, q: (p is None) != (q is None), one, two)


def complement(one):
    """The numbers of 0..M that are not in the set."""
    return difference([(0, M)], one)


def overlay(upper, lower):
    """The upper's value where it has one, else the lower's."""
    return combined(MAP, lambda p, q: q if p is None else p, upper, lower)


def erased(entries, ranges):
    """The map without the values of the ranges' numbers."""
    return combined(MAP, lambda p, q: p if q is None else None, entries, ranges)


def restriction(entries, ranges):
    """The map's values at the set's numbers."""
    return combined(MAP, lambda p, q: None if q is None else p, entries, ranges)


def domain(entries):
    """The set of numbers that have a value."""
    return combined(SET, lambda p: p is not None, entries)


def gaps(ranges, a, b):
    """The runs of non-members in the window a..b that can't be made longer there."""
    return difference([(a, b)], ranges)


def multiple(x, j):
    """The least multiple of 2^j at or above x."""
    return -(-x // 2**j) * 2**j


def fit(best, ranges, a, b, k, j=0):
    """The place of a run of k numbers that starts at a multiple of 2^j: 4, 6, 16, 7 in this order, else s."""
    in_order(a, b)
    if k == 0:
        raise Refused(6, 0)
    if j > 63:
        raise Refused(16, 0)
    wide = [(high - low + 1, multiple(low, j)) for low, high in gaps(ranges, a, b) if multiple(low, j) + k - 1 <= high]
    if not wide:
        raise Refused(7, 0)
    return min(wide)[1] if best else min(s for _, s in wide)


# ---- prefix blocks, as pairs (start, e): 2^e numbers from a multiple of 2^e on


def largest(low, left):
    """The exponent of the largest one at the low end of `left` numbers: its size divides the low end, and is at most what is left."""
    e = 0
    while low % 2 ** (e + 1) == 0 and 2 ** (e + 1) <= left:
        e += 1
    return e


def prefixes(ranges):
    """Those of a set: from each range the largest that fits, repeatedly."""
    pairs = []
    for low, high in ranges:
        while low <= high:
            e = largest(low, high - low + 1)
            pairs.append((low, e))
            low += 2**e
    return pairs


def audited(ranges, start=0, e=64):
    """The plain method, on the 2^e numbers from `start` on: wholly in they are kept, wholly out dropped, partly in cut into two halves."""
    last = start + 2**e - 1
    inside = [(max(low, start), min(high, last)) for low, high in ranges if low <= last and start <= high]
    if not inside:
        return []
    if inside == [(start, last)]:
        return [(start, e)]
    return audited(inside, start, e - 1) + audited(inside, start + 2 ** (e - 1), e - 1)


def in_order(a, b):
    """Refusal 4."""
    if a > b:
        raise Refused(4, 0)


def share_nothing(released, withdrawn):
    """Refusal 14: a bulletin's two sets share a number."""
    if intersection(released, withdrawn):
        raise Refused(14, 0)


# ---- the calls on blocks; each answers the values, and writes into what it was lent


def where(ranges, x):
    """Is x in one of the ranges, 1 or 0; and how many of them lie wholly below x, so that the one that holds it is not counted."""
    return [int(any(low <= x <= high for low, high in ranges)), sum(high < x for _, high in ranges)]


def set_member(block, x):
    """Is x a member, and where does it lie."""
    return where(judged(SET, block, 0), x)


def set_range_at(block, i):
    """The range at index i, or none."""
    ranges = judged(SET, block, 0)
    return list(ranges[i]) if i < len(ranges) else []


def set_size(block):
    """Empty, or the size less one."""
    ranges = judged(SET, block, 0)
    return [sum(high - low + 1 for low, high in ranges) - 1] if ranges else []


def set_least_member(block, x):
    """The least member at or above x, or none."""
    ranges = judged(SET, block, 0)
    return [max(low, x) for low, high in ranges if high >= x][:1]


def set_least_non_member(block, x):
    """The least non-member at or above x, or none."""
    return [low for low, _ in gaps(judged(SET, block, 0), x, M)][:1]


def window(kind, items, a, b):
    """The part with all items that share a number with a..b: its offset, behind the items wholly below, and its length; or none."""
    in_order(a, b)
    below = [item for item in items if item[1] < a]
    met = [item for item in items if item[0] <= b and a <= item[1]]
    return [1 + kind * len(below), kind * len(met)] if met else []


def set_window(block, a, b):
    """A window of a set, two words a range."""
    return window(SET, judged(SET, block, 0), a, b)


def map_window(block, a, b):
    """A window of a map, three words an entry."""
    return window(MAP, judged(MAP, block, 0), a, b)


def set_equal(one, two):
    """Have they the same members."""
    return [int(symmetric_difference(judged(SET, one, 0), judged(SET, two, 1)) == [])]


def set_within(one, two):
    """Is the first within the second."""
    return [int(difference(judged(SET, one, 0), judged(SET, two, 1)) == [])]


def set_disjoint(one, two):
    """Have they no common number."""
    return [int(intersection(judged(SET, one, 0), judged(SET, two, 1)) == [])]


def set_make_empty(block):
    """Refuses only with 1."""
    has_words(block, 0)
    store(block, [])
    return []


def changed_in_place(kind, block, a, b, change):
    """A change of a..b in place: 1, 2, 3, then 4, then 5."""
    items = judged(kind, block, 0)
    in_order(a, b)
    result = change(items)
    has_room(kind, block, result, 0)
    store(block, result)
    return []


def set_insert(block, a, b):
    """Insert a..b."""
    return changed_in_place(SET, block, a, b, lambda ranges: union(ranges, [(a, b)]))


def set_remove(block, a, b):
    """Remove a..b."""
    return changed_in_place(SET, block, a, b, lambda ranges: difference(ranges, [(a, b)]))


def map_assign(block, a, b, v):
    """Assign v to a..b, replacing what was there."""
    return changed_in_place(MAP, block, a, b, lambda entries: overlay([(a, b, v)], entries))


def map_erase(block, a, b):
    """Erase a..b."""
    return changed_in_place(MAP, block, a, b, lambda entries: erased(entries, [(a, b)]))


def into_output(kinds, operation):
    """A call that makes its result from its inputs into an output: 1, 2, 3 of each input, then 1 of the output, then 5."""

    def call(*blocks):
        """Inputs, and the output last."""
        inputs, out, position = blocks[:-1], blocks[-1], len(blocks) - 1
        lists = [judged(kind, block, i) for i, (kind, block) in enumerate(zip(kinds, inputs))]
        has_words(out, position)
        result = operation(*lists)
        has_room(kinds[-1], out, result, position)
        store(out, result)
        return []

    return call


def as_pairs(method):
    """A call that gives the prefix blocks of a set: 1, 2, 3 of the set, then 1 of the output, then 5, with no limit but its words."""

    def call(block, out):
        """The set, and the output of pairs."""
        ranges = judged(SET, block, 0)
        has_words(out, 1)
        pairs = method(ranges)
        if len(pairs) > (len(out) - 1) // 2:
            raise Refused(5, 1)
        store(out, pairs)
        return []

    return call


def set_first_fit(block, a, b, k, j=0):
    """First fit, as a question; where a j is given, from a multiple of 2^j on."""
    return [fit(False, judged(SET, block, 0), a, b, k, j)]


def set_best_fit(block, a, b, k, j=0):
    """Best fit, as a question."""
    return [fit(True, judged(SET, block, 0), a, b, k, j)]


def reserve(best, block, a, b, k, j):
    """The place is chosen first; Room is then judged for that place only."""
    ranges = judged(SET, block, 0)
    s = fit(best, ranges, a, b, k, j)
    result = union(ranges, [(s, s + k - 1)])
    has_room(SET, block, result, 0)
    store(block, result)
    return [s]


def set_reserve_first(block, a, b, k, j=0):
    """First fit, as a reservation."""
    return reserve(False, block, a, b, k, j)


def set_reserve_best(block, a, b, k, j=0):
    """Best fit, as a reservation."""
    return reserve(True, block, a, b, k, j)


# ---- the calls on signed sets, and on keys


def keys_in(block):
    """The ranges of a signed set, as keys, or the refusal of its block."""
    return [(low - HALF, high - HALF) for low, high in judged(SET, block, 0)]


def store_keys(block, ranges):
    """Writes the stored form of a signed set, if there is room for it."""
    has_room(SET, block, ranges, 0)
    store(block, [(low + HALF, high + HALF) for low, high in ranges])


def signed_member(block, x):
    """Is the key x a member, and where does it lie."""
    return where(keys_in(block), x)


def signed_range_at(block, i):
    """The keys of the range at index i, or none."""
    return [key for pair in keys_in(block)[i : i + 1] for key in pair]


def signed_least_member(block, x):
    """The least member at or above the key x, or none."""
    return [low for low, _ in intersection(keys_in(block), [(x, MAX)])][:1]


def signed_least_non_member(block, x):
    """The least key at or above x that is not a member, or none."""
    return [low for low, _ in gaps(keys_in(block), x, MAX)][:1]


def signed_window(block, a, b):
    """A window of a signed set: where it stands in the block, two words a range."""
    return window(SET, keys_in(block), a, b)


def signed_change(operation, block, a, b):
    """A change of the keys a..b in place: 1, 2, 3, then 4, then 5."""
    ranges = keys_in(block)
    in_order(a, b)
    store_keys(block, operation(ranges, [(a, b)]))
    return []


def signed_insert(block, a, b):
    """Insert the keys a..b."""
    return signed_change(union, block, a, b)


def signed_remove(block, a, b):
    """Remove the keys a..b."""
    return signed_change(difference, block, a, b)


def signed_first_fit(block, a, b, k):
    """First fit, as a question."""
    return [fit(False, keys_in(block), a, b, k)]


def signed_best_fit(block, a, b, k):
    """Best fit, as a question."""
    return [fit(True, keys_in(block), a, b, k)]


def signed_reserve(best, block, a, b, k):
    """The place is chosen first; Room is then judged for that place only."""
    ranges = keys_in(block)
    s = fit(best, ranges, a, b, k)
    store_keys(block, union(ranges, [(s, s + k - 1)]))
    return [s]


def signed_reserve_first(block, a, b, k):
    """First fit, as a reservation."""
    return signed_reserve(False, block, a, b, k)


def signed_reserve_best(block, a, b, k):
    """Best fit, as a reservation."""
    return signed_reserve(True, block, a, b, k)


def key_difference(a, b):
    """The first key less the second, or none where that is no signed word."""
    return [a - b] if MIN <= a - b <= MAX else []


def key_of_word(word):
    """The key that a word stands for."""
    return [word - HALF]


def word_of_key(key):
    """The word that stands for a key."""
    return [key + HALF]


# ---- the calls on maps and bulletins


def map_look_up(block, x):
    """The value of x, or none."""
    return [value for low, high, value in judged(MAP, block, 0) if low <= x <= high]


def map_site_over_factory(site, factory, x):
    """Offset and length of the deciding entry, and the position of the map that holds it; or none."""
    maps = [judged(MAP, site, 0), judged(MAP, factory, 1)]
    for position, entries in enumerate(maps):
        for i, (low, high, _) in enumerate(entries):
            if low <= x <= high:
                return [1 + MAP * i, MAP, position]
    return []


def bulletin_apply(listed, released, withdrawn, out):
    """The list without the withdrawn, then joined with the released numbers."""
    s, r, w = (judged(SET, block, i) for i, block in enumerate((listed, released, withdrawn)))
    has_words(out, 3)
    share_nothing(r, w)
    result = union(difference(s, w), r)
    has_room(SET, out, result, 3)
    store(out, result)
    return []


def bulletin_fold(released1, withdrawn1, released2, withdrawn2, released, withdrawn):
    """One bulletin from an earlier and a later one."""
    r1, w1, r2, w2 = (judged(SET, block, i) for i, block in enumerate((released1, withdrawn1, released2, withdrawn2)))
    has_words(released, 4)
    has_words(withdrawn, 5)
    share_nothing(r1, w1)
    share_nothing(r2, w2)
    r = union(difference(r1, w2), r2)
    w = union(difference(w1, r2), w2)
    has_room(SET, released, r, 4)
    has_room(SET, withdrawn, w, 5)
    store(released, r)
    store(withdrawn, w)
    return []


# ---- the byte form


def fletcher(data):
    """Fletcher's 16-bit checksum: b, then a."""
    a = b = 0
    for byte in data:
        a = (a + byte) % 255
        b = (b + a) % 255
    return bytes([b, a])


def divided(register):
    """A 16-bit register after eight steps of the division by x^16 + x^12 + x^5 + 1, bit by bit, the high bit first, with zeros behind."""
    for _ in range(8):
        register = register << 1 ^ (0x11021 if register & 0x8000 else 0)
    return register


DIVIDED = [divided(high << 8) for high in range(256)]  # what a byte that goes out at the top leaves


def crc(data):
    """CRC-16 with polynomial 0x1021, from FFFF on, not reflected and not changed at the end: the high byte, then the low."""
    register = 0xFFFF
    for byte in data:
        register = (register & 0xFF) << 8 ^ DIVIDED[register >> 8 ^ byte]
    return register.to_bytes(2, "big")


CHECK = {OLD: fletcher, NEW: crc}


def check_bytes(data, mark):
    """The check of kind and body that a record with this mark has."""
    return CHECK[bytes(mark)](data)


def record(kind, numbers, size, mark=NEW):
    """The mark, the kind, the numbers big-endian, each of `size` bytes, and the check. Keys are in two's complement."""
    data = bytes([kind]) + b"".join(number.to_bytes(size, "big", signed=kind == SIGNED_RANGE) for number in numbers)
    return mark + data + check_bytes(data, mark)


def set_form(ranges, mark=NEW):
    """The byte form of a set: the one that is written, or the old one."""
    return record(START_OF_SET, [len(ranges)], 2, mark) + b"".join(record(RANGE, r, 8, mark) for r in ranges)


def signed_form(ranges, mark=NEW):
    """The byte form of a signed set, whose ranges are given in keys."""
    return record(START_OF_SIGNED, [len(ranges)], 2, mark) + b"".join(record(SIGNED_RANGE, r, 8, mark) for r in ranges)


def map_form(entries, mark=NEW):
    """The byte form of a map."""
    return record(START_OF_MAP, [len(entries)], 2, mark) + b"".join(record(ENTRY, e, 8, mark) for e in entries)


def bulletin_form(released, withdrawn, mark=NEW):
    """The byte form of a bulletin: its start, all released, all withdrawn."""
    return (
        record(START_OF_BULLETIN, [len(released), len(withdrawn)], 2, mark)
        + b"".join(record(RELEASED, r, 8, mark) for r in released)
        + b"".join(record(WITHDRAWN, r, 8, mark) for r in withdrawn)
    )


def record_at(data, at, due):
    """The body of the record of the kind that is due at `at`, and where the next begins; or 8, 9, 10, 8, 11."""
    if len(data) - at < 3:
        raise Refused(8, at)
    mark = bytes(data[at : at + 2])
    if mark not in CHECK or mark != bytes(data[:2]):  # the first record has one of the two marks, and each later one the same
        raise Refused(9, at)
    if data[at + 2] != due:
        raise Refused(10, at)
    end = at + 3 + BODY[due] + 2
    if end > len(data):
        raise Refused(8, at)
    if check_bytes(data[at + 2 : end - 2], mark) != data[end - 2 : end]:
        raise Refused(11, at)
    return data[at + 3 : end - 2], end


def numbers_in(body, size, signed=False):
    """The big-endian numbers of `size` bytes in a body."""
    return tuple(int.from_bytes(body[i : i + size], "big", signed=signed) for i in range(0, len(body), size))


def read_start(data, due, kind):
    """The counts of a start record and where the first item begins; a count above the limit is 12."""
    body, at = record_at(data, 0, due)
    counts = numbers_in(body, 2)
    if any(count > LIMIT[kind] for count in counts):
        raise Refused(12, 0)
    return counts, at


def read_items(data, at, due, count):
    """`count` items from `at` on, each judged by itself and against the one before it (12), and where they end."""
    items = []
    for _ in range(count):
        body, end = record_at(data, at, due)
        item = numbers_in(body, 8, due == SIGNED_RANGE)
        if item[0] > item[1] or (items and not follows(items[-1], item)):
            raise Refused(12, at)
        items.append(item)
        at = end
    return items, at


def nothing_after(data, at):
    """Refusal 13: bytes follow the last record."""
    if at < len(data):
        raise Refused(13, at)


def items_of_form(start, data):
    """The items of the byte form of a set, a map or a signed set, as its start record says: 8 to 13."""
    due = {START_OF_SET: RANGE, START_OF_MAP: ENTRY, START_OF_SIGNED: SIGNED_RANGE}[start]
    (count,), at = read_start(data, start, MAP if start == START_OF_MAP else SET)
    items, at = read_items(data, at, due, count)
    nothing_after(data, at)
    return items


def set_read(data, out):
    """Reading a set: 8 to 13, then 1, then 5."""
    ranges = items_of_form(START_OF_SET, data)
    has_words(out, 0)
    has_room(SET, out, ranges, 0)
    store(out, ranges)
    return []


def signed_read(data, out):
    """Reading a signed set: 8 to 13, judged in keys, then 1, then 5."""
    ranges = items_of_form(START_OF_SIGNED, data)
    has_words(out, 0)
    store_keys(out, ranges)
    return []


def map_read(data, out):
    """Reading a map: 8 to 13, then 1, then 5."""
    entries = items_of_form(START_OF_MAP, data)
    has_words(out, 0)
    has_room(MAP, out, entries, 0)
    store(out, entries)
    return []


def bulletin_read(data, released, withdrawn):
    """Reading a bulletin: 8 to 13, then 14, then 1 for each output block, then 5 for each."""
    (r_count, w_count), at = read_start(data, START_OF_BULLETIN, SET)
    r, at = read_items(data, at, RELEASED, r_count)
    w, at = read_items(data, at, WITHDRAWN, w_count)
    nothing_after(data, at)
    share_nothing(r, w)
    has_words(released, 0)
    has_words(withdrawn, 1)
    has_room(SET, released, r, 0)
    has_room(SET, withdrawn, w, 1)
    store(released, r)
    store(withdrawn, w)
    return []


def set_judge_form(data):
    """Judges the byte form of a set; the number of its ranges."""
    return [len(items_of_form(START_OF_SET, data))]


def put(form, data, p):
    """Writes a form into the part of the byte buffer that begins at p; its length is returned. Refusal 15."""
    if p > len(data) or len(data) - p < len(form):
        raise Refused(15, 0)
    data[p : p + len(form)] = form
    return [len(form)]


def set_write(block, data, p):
    """Writing a set."""
    return put(set_form(judged(SET, block, 0)), data, p)


def signed_write(block, data, p):
    """Writing a signed set."""
    return put(signed_form(keys_in(block)), data, p)


def map_write(block, data, p):
    """Writing a map."""
    return put(map_form(judged(MAP, block, 0)), data, p)


def bulletin_write(released, withdrawn, data, p):
    """Writing a bulletin: 1, 2, 3 of both blocks, then 14, then 15."""
    r, w = judged(SET, released, 0), judged(SET, withdrawn, 1)
    share_nothing(r, w)
    return put(bulletin_form(r, w), data, p)


def member(data, x):
    """The C host's question: 1 or 0, all judged before."""
    return [int(any(low <= x <= high for low, high in items_of_form(START_OF_SET, data)))]


# ---- every call of the header, by number: its function, and what it is lent
# i a word block that is an input, c one changed in place, o an output; b bytes to read, w bytes to write; x a word and s a key, arguments

CALLS = [
    ("set_member", set_member, "ix"),
    ("set_range_at", set_range_at, "ix"),
    ("set_size", set_size, "i"),
    ("set_least_member", set_least_member, "ix"),
    ("set_least_non_member", set_least_non_member, "ix"),
    ("set_window", set_window, "ixx"),
    ("set_equal", set_equal, "ii"),
    ("set_within", set_within, "ii"),
    ("set_disjoint", set_disjoint, "ii"),
    ("set_make_empty", set_make_empty, "c"),
    ("set_insert", set_insert, "cxx"),
    ("set_remove", set_remove, "cxx"),
    ("set_union", into_output((SET, SET, SET), union), "iio"),
    ("set_intersection", into_output((SET, SET, SET), intersection), "iio"),
    ("set_difference", into_output((SET, SET, SET), difference), "iio"),
    ("set_symmetric_difference", into_output((SET, SET, SET), symmetric_difference), "iio"),
    ("set_complement", into_output((SET, SET), complement), "io"),
    ("set_prefix_blocks", as_pairs(prefixes), "io"),
    ("set_audit_blocks", as_pairs(audited), "io"),
    ("set_first_fit", set_first_fit, "ixxx"),
    ("set_best_fit", set_best_fit, "ixxx"),
    ("set_reserve_first", set_reserve_first, "cxxx"),
    ("set_reserve_best", set_reserve_best, "cxxx"),
    ("set_first_fit_aligned", set_first_fit, "ixxxx"),
    ("set_best_fit_aligned", set_best_fit, "ixxxx"),
    ("set_reserve_first_aligned", set_reserve_first, "cxxxx"),
    ("set_reserve_best_aligned", set_reserve_best, "cxxxx"),
    ("signed_member", signed_member, "is"),
    ("signed_range_at", signed_range_at, "ix"),
    ("signed_least_member", signed_least_member, "is"),
    ("signed_least_non_member", signed_least_non_member, "is"),
    ("signed_window", signed_window, "iss"),
    ("signed_insert", signed_insert, "css"),
    ("signed_remove", signed_remove, "css"),
    ("signed_first_fit", signed_first_fit, "issx"),
    ("signed_best_fit", signed_best_fit, "issx"),
    ("signed_reserve_first", signed_reserve_first, "cssx"),
    ("signed_reserve_best", signed_reserve_best, "cssx"),
    ("key_difference", key_difference, "ss"),
    ("key_of_word", key_of_word, "x"),
    ("word_of_key", word_of_key, "s"),
    ("map_look_up", map_look_up, "ix"),
    ("map_assign", map_assign, "cxxx"),
    ("map_erase", map_erase, "cxx"),
    ("map_window", map_window, "ixx"),
    ("map_site_over_factory", map_site_over_factory, "iix"),
    ("map_overlay", into_output((MAP, MAP, MAP), overlay), "iio"),
    ("map_restriction", into_output((MAP, SET, MAP), restriction), "iio"),
    ("map_domain", into_output((MAP, SET), domain), "io"),
    ("bulletin_apply", bulletin_apply, "iiio"),
    ("bulletin_fold", bulletin_fold, "iiiioo"),
    ("set_read", set_read, "bo"),
    ("signed_read", signed_read, "bo"),
    ("map_read", map_read, "bo"),
    ("bulletin_read", bulletin_read, "boo"),
    ("set_judge_form", set_judge_form, "b"),
    ("member", member, "bx"),
    ("set_write", set_write, "iwx"),
    ("signed_write", signed_write, "iwx"),
    ("map_write", map_write, "iwx"),
    ("bulletin_write", bulletin_write, "iiwx"),
]
NUMBER = {name: number for number, (name, _, _) in enumerate(CALLS)}
LENT = {name: letters.replace("x", "").replace("s", "") for name, _, letters in CALLS}
GIVEN = {name: "".join(letter for letter in letters if letter in "xs") for name, _, letters in CALLS}


def run(name, lent, args):
    """The outcome of a call: status, the answer (place, count, three values), and what everything lent holds afterwards.

    The call `member` has no answer: None. The one number of `key_of_word` and of `word_of_key` is told as an answer's one value. A
    value below 0, a key, stands in an answer in two's complement: 2^64 above.
    """
    _, function, _ = CALLS[NUMBER[name]]
    after = [bytearray(part) if isinstance(part, (bytes, bytearray)) else list(part) for part in lent]
    try:
        values = function(*after, *args)
    except Refused as refused:
        answer = None if name == "member" else (refused.place, 0, 0, 0, 0)
        return 16 + refused.number, answer, lent
    if name == "member":
        return values[0], None, after
    return 0, (0, len(values), *(value % 2**64 for value in values), *[0] * (3 - len(values))), after
