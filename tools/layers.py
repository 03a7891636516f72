#!/usr/bin/env python3
"""Draws docs/layers.svg: the crates of crates.txt, each above those that it rests on, with a line to each that no other of them brings
along. tools/layers.py writes the picture; tools/layers.py --check says whether the one that is there is the one that it would write."""
import os
import re
import sys

ROOT = os.path.dirname(os.path.dirname(os.path.abspath(__file__)))
PICTURE = os.path.join(ROOT, "docs", "layers.svg")
BOX = (128, 34)  # width and height of a crate's box
GAP = (22, 56)  # between boxes of a row, and between rows
EDGE = 24  # around the picture
# What a crate is for: the colour of its box, and the words beside it in the legend.
ROLES = {
    "users": ("#d7ebd3", "given to users"),
    "inner": ("#e4e7ee", "inner"),
    "theory": ("#f6e7c1", "theory and theorems, no code"),
    "program": ("#dbe8f7", "programs"),
}


def read(*parts):
    with open(os.path.join(ROOT, *parts), encoding="utf-8") as f:
        return f.read()


def crates():
    """Each crate with the crates of the project that it rests on, in the file's order."""
    found = {}
    for line in read("crates.txt").splitlines():
        name, colon, rest = line.split("#")[0].partition(":")
        if colon:
            found[name.split()[0]] = rest.split()
    return {name: [d for d in deps if d in found] for name, deps in found.items()}


def below(name, deps, known):
    """Every crate that a crate rests on, directly or through others."""
    if name not in known:
        known[name] = set(deps[name]).union(*(below(d, deps, known) for d in deps[name]))
    return known[name]


def direct(deps):
    """The dependencies that no other dependency brings along."""
    known = {}
    for name in deps:
        below(name, deps, known)
    return {name: [d for d in ds if not any(d in known[e] for e in ds if e != d)] for name, ds in deps.items()}


def rows(deps):
    """The crates by the length of the longest way down, each row in an order that keeps its lines short."""
    depth = {}

    def rank(name):
        if name not in depth:
            depth[name] = 1 + max((rank(d) for d in deps[name]), default=-1)
        return depth[name]

    for name in deps:
        rank(name)
    found = [[n for n in deps if depth[n] == r] for r in range(max(depth.values()) + 1)]
    place = {}
    for row in found:
        row.sort(key=lambda n: sum(place[d] for d in deps[n]) / len(deps[n]) if deps[n] else 0)
        for i, name in enumerate(row):
            place[name] = (i + 1) / (len(row) + 1)
    return found


def role(name, users):
    if os.path.exists(os.path.join(ROOT, "crates", name, "src", "main.rt")):
        return "program"
    if name in users:
        return "users"
    source = "".join(read("crates", name, "src", f) for f in os.listdir(os.path.join(ROOT, "crates", name, "src")))
    return "inner" if re.search(r"^\s*(pub )?(extern \"C\" )?fn ", source, re.M) else "theory"


def picture():
    deps = direct(crates())
    users = set(re.findall(r"^## `(\w+)`", read("docs", "CALLS.md"), re.M))
    grid = rows(deps)
    width = 2 * EDGE + max(len(r) for r in grid) * (BOX[0] + GAP[0]) - GAP[0]
    height = 2 * EDGE + len(grid) * (BOX[1] + GAP[1]) - GAP[1] + 40
    at = {}
    for i, row in enumerate(grid):
        left = (width - len(row) * (BOX[0] + GAP[0]) + GAP[0]) / 2
        for j, name in enumerate(row):
            at[name] = (left + j * (BOX[0] + GAP[0]), height - 40 - EDGE - BOX[1] - i * (BOX[1] + GAP[1]))
    out = [
        f'<svg xmlns="http://www.w3.org/2000/svg" viewBox="0 0 {width:.0f} {height:.0f}" font-family="sans-serif" font-size="14">',
        '<title>The crates, each above those that it rests on</title>',
        f'<rect width="{width:.0f}" height="{height:.0f}" fill="#ffffff"/>',
    ]
    for name, ds in deps.items():
        for d in ds:
            x, y = at[name][0] + BOX[0] / 2, at[name][1] + BOX[1]
            u, v = at[d][0] + BOX[0] / 2, at[d][1]
            out.append(
                f'<path d="M{x:.0f} {y:.0f} C{x:.0f} {y + 30:.0f} {u:.0f} {v - 30:.0f} {u:.0f} {v:.0f}" fill="none" stroke="#8a8f9c"/>'
            )
    for name, (x, y) in at.items():
        out.append(
            f'<rect x="{x:.0f}" y="{y:.0f}" width="{BOX[0]}" height="{BOX[1]}" rx="5" fill="{ROLES[role(name, users)][0]}" stroke="#5b6070"/>'
        )
        out.append(f'<text x="{x + BOX[0] / 2:.0f}" y="{y + 22:.0f}" text-anchor="middle">{name}</text>')
    x = EDGE
    for colour, words in ROLES.values():
        out.append(f'<rect x="{x:.0f}" y="{height - 38:.0f}" width="16" height="16" fill="{colour}" stroke="#5b6070"/>')
        out.append(f'<text x="{x + 22:.0f}" y="{height - 25:.0f}">{words}</text>')
        x += 46 + 7.6 * len(words)
    return "\n".join(out + ["</svg>", ""])


def main():
    drawn = picture()
    if sys.argv[1:] == ["--check"]:
        if not os.path.exists(PICTURE) or open(PICTURE, encoding="utf-8").read() != drawn:
            sys.exit("layers: docs/layers.svg is not the picture of crates.txt: run tools/layers.py")
        print("layers: docs/layers.svg is the picture of crates.txt")
        return
    with open(PICTURE, "w", encoding="utf-8") as f:
        f.write(drawn)


main()
