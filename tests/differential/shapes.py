"""Nasty numbers, lists, blocks and marks for the cases."""

import model
from model import HALF, LIMIT, M, MAP, MAX, MIN, SET


def clipped(x):
    """The number of the line that is nearest to x."""
    return max(0, min(M, x))


def number(rng):
    """Any number, often at or next to 0, M or a power of two."""
    kind = rng.randrange(6)
    if kind == 0:
        return rng.randrange(20)
    if kind == 1:
        return M - rng.randrange(20)
    if kind == 2:
        return clipped((1 << rng.randrange(64)) + rng.randrange(-2, 3))
    if kind == 3:
        return rng.choice([0, 1, M - 1, M])
    return rng.randrange(1000) if kind == 4 else rng.getrandbits(64)


def near(rng, points):
    """A number at or next to one of the points."""
    return clipped(rng.choice(points) + rng.choice([-2, -1, -1, 0, 0, 0, 1, 1, 2]))


def points_of(*lists):
    """The ends of all items of the lists, and of the line."""
    return [0, M] + [end for items in lists for item in items for end in item[:2]]


def about_zero(rng, ranges):
    """Ranges of words, mostly moved so that the word of the key 0 is at, next to, in or between them, where that can be."""
    if not ranges or rng.random() < 0.3:
        return ranges
    shift = HALF + rng.choice([-1, 0, 0, 1, 2]) - rng.choice(rng.choice(ranges))
    if ranges[0][0] + shift < 0 or ranges[-1][1] + shift > M:
        return ranges
    return [(low + shift, high + shift) for low, high in ranges]


def key(rng):
    """Any key, often at or next to the least, -1, 0 or the greatest, or to a power of two or its negative."""
    chance = rng.randrange(4)
    if chance == 0:
        return rng.randrange(MIN, MAX + 1)
    if chance == 1:
        return max(MIN, min(MAX, rng.choice([-1, 1]) * (1 << rng.randrange(64)) + rng.randrange(-2, 3)))
    return rng.choice([MIN, MIN + 1, -2, -1, 0, 1, MAX - 1, MAX])


def in_keys(ranges):
    """Ranges of words as ranges of the keys that they stand for."""
    return [(low - HALF, high - HALF) for low, high in ranges]


def some_mark(rng):
    """The mark of a form that is read: the new one, or now and then the old one."""
    return rng.choice([model.OLD, model.NEW, model.NEW])


def moved(rng, ranges):
    """The ranges at the line's low end, or moved: to the high end, some of them to the high end, anywhere; or stretched."""
    last = ranges[-1][1]
    shift = M - last - rng.choice([0, 0, 0, 1, 2])
    kind = rng.randrange(6)
    if kind == 0 or shift <= 0:
        return ranges
    if kind == 1:
        return ranges[:-1] + [(ranges[-1][0], M)]
    first = rng.randrange(len(ranges)) if kind == 2 else 0
    shift = rng.randrange(shift + 1) if kind == 3 else shift
    return ranges[:first] + [(low + shift, high + shift) for low, high in ranges[first:]]


def valued(rng, ranges):
    """Entries of these ranges; where two touch, their values differ."""
    palette = rng.choice([[0, 1], [0, M], [0, 7, M], [5, 6, 7, 8], [number(rng), number(rng), 3]])
    entries = []
    for low, high in ranges:
        value = rng.choice(palette)
        if entries and entries[-1][1] + 1 == low and entries[-1][2] == value:
            value = (value + 1) % (M + 1)
        entries.append((low, high, value))
    return entries


def fresh(rng, kind, n, steps=None):
    """n sound items, with lengths and gaps that are often the least possible, below `steps` if that is given."""
    if n == 0:
        return []
    steps = steps or rng.choice([1, 2, 3, 40, M // (3 * n + 3)])
    at, ranges = rng.choice([0, 0, 1, rng.randrange(steps)]), []
    for _ in range(n):
        high = at + rng.randrange(steps)
        ranges.append((at, high))
        at = high + (2 if kind == SET else 1) + rng.choice([0, rng.randrange(steps)])
    ranges = moved(rng, ranges)
    return valued(rng, ranges) if kind == MAP else ranges


def aligned(rng, n):
    """At most n ranges whose ends are at a power of two or a multiple of one, or one beside it; often from 0 on, often up to M."""
    cuts = {0} if rng.random() < 0.3 else set()
    cuts |= {M + 1} if rng.random() < 0.3 else set()
    while len(cuts) < 2 * n:
        e = rng.randrange(65)
        cut = rng.choice([1 << e, rng.getrandbits(64) >> e << e]) + rng.choice([-1, 0, 0, 0, 1])
        cuts.add(max(0, min(M + 1, cut)))
    cuts = sorted(cuts)
    return [(low, after - 1) for low, after in zip(cuts[::2], cuts[1::2])]


def exponent(rng, gaps):
    """A j from 0 to 63: small, any, or about the largest with a multiple of 2^j in one of the gaps, or at its low end."""
    low, high = rng.choice(gaps or [(0, M)])
    inside = ((low - 1) ^ high).bit_length() - 1 if low else 63
    at_low = (low & -low).bit_length() - 1 if low else 63
    near_these = [inside + rng.choice([-1, 0, 0, 1]), at_low + rng.choice([0, 0, 1])]
    return max(0, min(63, rng.choice([rng.randrange(4), rng.randrange(4), rng.randrange(64), *near_these])))


def oversized(rng, j):
    """An exponent above 63: just above it, or huge, and often one of which j is left where only its lower bits are taken."""
    return rng.choice([64, 65, rng.randrange(64, 71), 2**32, 2**63, M] + [j + 2**e for e in (6, 8, 16, 32, 63)])


def related(rng, kind, points, n):
    """At most n sound items, whose ends are at or next to the points."""
    cuts = sorted({near(rng, points) for _ in range(2 * n)})
    if kind == SET:
        return model.union(list(zip(cuts[::2], cuts[1::2])), [])
    palette = rng.choice([[0, 1, None], [0, 7, M, None]])
    pieces = [(low, after - 1, rng.choice(palette)) for low, after in zip(cuts, cuts[1:])]
    return model.combined(MAP, lambda value: value, [piece for piece in pieces if piece[2] is not None])


def special(rng, kind):
    """Lists that are all of the line, or nearly, or next to nothing."""
    ranges = rng.choice([[], [(0, M)], [(0, 0)], [(M, M)], [(0, M - 1)], [(1, M)], [(0, 0), (M, M)], [(0, 2**63 - 1)], [(2**63, M)]])
    return valued(rng, ranges) if kind == MAP else ranges


def some_items(rng, kind, n, others=()):
    """Items of any sort: fresh, special, or with ends near those of other lists."""
    chance = rng.random()
    if others and chance < 0.75:
        return related(rng, kind, points_of(*others), n)
    return special(rng, kind) if chance > 0.93 else fresh(rng, kind, n)


def garbage(rng, count):
    """Words to stand behind a stored form, or in an output."""
    style = rng.randrange(5)
    if style == 0:
        return [0] * count
    if style == 1:
        return [M] * count
    if style == 2:
        return list(range(count))
    return [number(rng) for _ in range(count)]


def words(items):
    """The stored form."""
    return [len(items)] + [word for item in items for word in item]


def block(rng, kind, items, spare=None):
    """A block of these items with room for `spare` more, and garbage behind them."""
    spare = rng.choice([0, 0, 1, 1, 2, 3, 8]) if spare is None else spare
    return words(items) + garbage(rng, kind * spare + rng.randrange(kind))


def room_for(rng, kind, count):
    """An output of exactly this capacity."""
    return garbage(rng, 1 + kind * count + rng.randrange(kind))


def overcounted(rng, kind, lent):
    """The block with a count above its capacity: by one, by a few, or so that a product with the words an item takes wraps."""
    cap = model.capacity(kind, len(lent))
    wraps = [(M + 1) // kind + rng.randrange(4), 1 << 63, (1 << 63) + 1, 1 << 62, 1 << 32, M, M - 1]
    count = rng.choice([cap + 1, cap + 1, cap + 2, cap + rng.randrange(1, 100), LIMIT[kind] + 1, rng.choice(wraps)])
    return [max(count, cap + 1)] + lent[1:]


def spoiled(rng, kind, items):
    """One try at items that are not sound, as many as before (or one, if there was none)."""
    items = list(items) or [(3, 5) + (1,) * (kind - 2)]
    i = rng.randrange(len(items))
    low, high, *value = items[i]
    way = rng.randrange(7) if len(items) > 1 and i > 0 else 0
    if way == 0:
        items[i] = (high, low, *value) if low < high else (clipped(high + 1), max(0, low - (low == M)), *value)
    elif way == 1:
        items[i] = (clipped(items[i - 1][1] + 1), max(high, clipped(items[i - 1][1] + 1)), *items[i - 1][2:])
    elif way == 2:
        items[i] = (items[i - 1][1], max(high, items[i - 1][1]), *value)
    elif way == 3:
        items[i - 1] = (items[i - 1][0], M, *items[i - 1][2:])
    elif way == 4:
        items[i - 1], items[i] = items[i], items[i - 1]
    elif way == 5:
        items[i] = items[i - 1]
    else:
        items[i] = (near(rng, points_of(items)), near(rng, points_of(items)), *value)
    return items


def unsound(rng, kind, items):
    """Items that are not sound, in any of the ways there are."""
    while True:
        result = spoiled(rng, kind, items)
        if not model.sound_items(result):
            return result
