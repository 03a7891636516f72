#!/usr/bin/env python3
"""Makes the byte forms of this folder, by plain means: records of a mark, a kind, a body and a check. The check is the CRC that Python's own
library has; in old.set, which has the old mark, it is Fletcher's two sums. Run it here to make them again."""
import binascii
import os

HERE = os.path.dirname(os.path.abspath(__file__))
LAST = 2**64 - 1


def fletcher(data):
    a = b = 0
    for byte in data:
        a = (a + byte) % 255
        b = (b + a) % 255
    return bytes([b, a])


def record(kind, body, old=False):
    data = bytes([kind]) + body
    if old:
        return b"\xc5\x3a" + data + fletcher(data)
    return b"\xc5\x3b" + data + binascii.crc_hqx(data, 0xFFFF).to_bytes(2, "big")


def words(*numbers):
    return b"".join(n.to_bytes(8, "big") for n in numbers)


def set_form(ranges, old=False):
    start = record(0x01, len(ranges).to_bytes(2, "big"), old)
    return start + b"".join(record(0x10, words(low, high), old) for low, high in ranges)


def map_form(entries):
    start = record(0x02, len(entries).to_bytes(2, "big"))
    return start + b"".join(record(0x11, words(*entry)) for entry in entries)


def bulletin_form(released, withdrawn):
    counts = len(released).to_bytes(2, "big") + len(withdrawn).to_bytes(2, "big")
    ranges = b"".join(record(0x12, words(*r)) for r in released) + b"".join(record(0x13, words(*w)) for w in withdrawn)
    return record(0x03, counts) + ranges


FILES = {
    "one_range.set": set_form([(5, 9)]),
    "damaged.set": set_form([(5, 9)])[:-1] + b"\x09",
    "old.set": set_form([(1000, 1999), (4000, 4000)], old=True),
    "empty.set": set_form([]),
    "everything.set": set_form([(0, LAST)]),
    "released.set": set_form([(1000, 1999), (4000, 4000), (70000, 79999), (LAST - 9, LAST)]),
    "records.map": map_form([(1000, 1999, 7), (2000, 2999, 8), (70000, 79999, 7)]),
    "site.map": map_form([(1990, 2009, 21)]),
    "recall.bulletin": bulletin_form([(3000, 3100)], [(1500, 1600), (4000, 4000)]),
}

if __name__ == "__main__":
    for name, form in FILES.items():
        with open(os.path.join(HERE, name), "wb") as f:
            f.write(form)
        print(f"{name}: {len(form)} bytes")
