#!/usr/bin/env python3
"""Makes docs/BENCHMARKS.md and docs/benchmarks.svg from build/bench.csv, which bench/run writes."""

import csv
import math
from pathlib import Path

TOP = Path(__file__).resolve().parent.parent
CONTENDERS = [("proved", "proved", "#0b5fa5", ""), ("plain", "plain C", "#c2571a", "5 3"), ("icl", "Boost.ICL", "#6b6b6b", "1.5 2.5")]
# The most that a time may be of the plain C's, at the largest random inputs.
OVER_PLAIN = {"judge": 1.6, "member": 1.2, "insert": 1.5, "union": 1.7, "intersection": 1.7, "difference": 1.7,
              "symmetric difference": 1.7, "apply": 1.7, "judge of bytes": 2.0, "member of bytes": 2.0, "read": 2.0, "write": 2.0}
# The most that a time may be, in milliseconds, at the largest random inputs.
MILLISECONDS = {"audit of blocks": 10.0}
UNDER_ICL = 5.0
GROWTH = 4.6


def load(path):
    """The remarks on the machine, and the rows of times: of each contender the least of all passes."""
    lines = path.read_text().splitlines()
    machine = [line[2:].split(": ", 1) for line in lines if line.startswith("# ")]
    rows = {}
    for row in csv.DictReader(line for line in lines if not line.startswith("#")):
        row["ranges"] = int(row["ranges"])
        row.update({key: float(row[key]) for key, _, _, _ in CONTENDERS})
        least = rows.setdefault((row["shape"], row["measure"], row["ranges"]), row)
        least.update({key: min(least[key], row[key]) for key, _, _, _ in CONTENDERS})
    return machine, list(rows.values())


def shown(ns):
    """A time with its unit."""
    if ns == 0:
        return "–"
    return f"{ns:.1f} ns" if ns < 1000 else f"{ns / 1000:.2f} µs"


def ratio(over, under):
    return f"{over / under:.2f}" if over and under else "–"


def measures(rows):
    """The names of the measures, in the order of the file."""
    return list(dict.fromkeys(row["measure"] for row in rows))


def series(rows, shape, measure):
    """The rows of a measure, from the smallest input to the largest."""
    return [row for row in rows if row["shape"] == shape and row["measure"] == measure]


def verdict(value, limit, at_most):
    """The value beside its limit."""
    reached = value <= limit if at_most else value >= limit
    return f"{value:.2f}, {'at most' if at_most else 'at least'} {limit:g}: {'reached' if reached else '**not reached**'}"


def targets(rows):
    """What was aimed at, for each measure, at the largest random input."""
    lines = ["| call | proved / plain C | Boost.ICL / proved | growth to four times the ranges |", "|---|---|---|---|"]
    for measure in measures(rows):
        *_, before, last = series(rows, "random", measure)
        over, under = last["proved"] / last["plain"], last["icl"] / last["proved"]
        plain = verdict(over, OVER_PLAIN[measure], True) if measure in OVER_PLAIN else f"{over:.2f}"
        icl = "–" if not last["icl"] else verdict(under, UNDER_ICL, False) if last["bulk"] == "1" else f"{under:.2f}"
        lines.append(f"| {measure} | {plain} | {icl} | {verdict(last['proved'] / before['proved'], GROWTH, True)} |")
    for measure, most in MILLISECONDS.items():
        last = series(rows, "random", measure)[-1]
        lines += ["", f"The {measure} of {last['ranges']:,} ranges takes, in milliseconds, {verdict(last['proved'] / 1e6, most, True)}."]
    return lines


def table(rows, shape):
    """Every time of a shape."""
    lines = ["| call | ranges | proved | plain C | Boost.ICL | proved / plain C | Boost.ICL / proved |", "|---|---|---|---|---|---|---|"]
    for measure in measures(rows):
        for row in series(rows, shape, measure):
            times = " | ".join(shown(row[key]) for key, _, _, _ in CONTENDERS)
            ratios = f"{ratio(row['proved'], row['plain'])} | {ratio(row['icl'], row['proved'])}"
            lines.append(f"| {measure} | {row['ranges']:,} | {times} | {ratios} |")
    return lines


def page(machine, rows):
    """The page: machine, targets, plot, how it is measured, and every time."""
    parts = ["# Benchmarks", "", "Made by `bench/run` and `bench/plot.py`.", ""]
    parts += [f"- {name}: {value}" for name, value in machine]
    parts += ["", "## At the largest random inputs", "", *targets(rows), "", "![time against ranges](benchmarks.svg)", ""]
    parts += [(TOP / "bench/remarks.md").read_text().rstrip(), ""]
    for shape in ("random", "regular"):
        parts += [f"## {shape.capitalize()} ranges, time per call", "", *table(rows, shape), ""]
    return "\n".join(parts)


WIDE, HIGH, LEFT, ABOVE, COLUMNS = 200, 150, 52, 30, 4
X, Y = (math.log10(2), math.log10(6000)), (1, 7)


def place(ranges, ns):
    """Where a time stands in its panel."""
    x = (math.log10(ranges) - X[0]) / (X[1] - X[0]) * WIDE
    return x, HIGH - (math.log10(ns) - Y[0]) / (Y[1] - Y[0]) * HIGH


def frame():
    """The lines and the numbers of a panel."""
    parts = [f'<rect width="{WIDE}" height="{HIGH}" fill="none" stroke="#999"/>']
    for power, label in zip(range(1, 8), ("10 ns", "100 ns", "1 µs", "10 µs", "100 µs", "1 ms", "10 ms")):
        y = place(10, 10**power)[1]
        parts.append(f'<line x2="{WIDE}" y1="{y:.1f}" y2="{y:.1f}" stroke="#e4e4e4"/>')
        parts.append(f'<text x="-5" y="{y + 3:.1f}" text-anchor="end">{label}</text>')
    for ranges in (10, 100, 1000, 4000):
        x = place(ranges, 10)[0]
        parts.append(f'<line x1="{x:.1f}" x2="{x:.1f}" y2="{HIGH}" stroke="#e4e4e4"/>')
        parts.append(f'<text x="{x:.1f}" y="{HIGH + 12}" text-anchor="middle">{ranges:,}</text>')
    return parts


def curve(rows, key, colour, dashes):
    """One contender's line with its points."""
    points = [place(row["ranges"], row[key]) for row in rows if row[key]]
    if not points:
        return []
    line = " ".join(f"{x:.1f},{y:.1f}" for x, y in points)
    parts = [f'<polyline points="{line}" fill="none" stroke="{colour}" stroke-width="1.6" stroke-dasharray="{dashes}"/>']
    return parts + [f'<circle cx="{x:.1f}" cy="{y:.1f}" r="2.2" fill="{colour}"/>' for x, y in points]


def panel(index, rows, measure):
    """The panel of one call."""
    x, y = LEFT + index % COLUMNS * (WIDE + LEFT + 8), ABOVE + 34 + index // COLUMNS * (HIGH + 52)
    parts = [f'<g transform="translate({x},{y})">', *frame()]
    for key, _, colour, dashes in CONTENDERS:
        parts += curve(series(rows, "random", measure), key, colour, dashes)
    return parts + [f'<text x="{WIDE / 2}" y="-7" text-anchor="middle" font-size="12" font-weight="bold">{measure}</text>', "</g>"]


def plot(rows):
    """All panels, with the names of the lines above them."""
    names = measures(rows)
    wide, high = COLUMNS * (WIDE + LEFT + 8) + 12, ABOVE + 44 + -(-len(names) // COLUMNS) * (HIGH + 52)
    parts = [f'<svg xmlns="http://www.w3.org/2000/svg" viewBox="0 0 {wide} {high}" font-family="sans-serif" font-size="9" fill="#333">',
             f'<rect width="{wide}" height="{high}" fill="#fff"/>',
             f'<text x="{LEFT}" y="22" font-size="13">Time per call against ranges, random inputs, both axes logarithmic</text>']
    for i, (_, name, colour, dashes) in enumerate(CONTENDERS):
        x = LEFT + 480 + 120 * i
        parts.append(f'<line x1="{x}" x2="{x + 30}" y1="18" y2="18" stroke="{colour}" stroke-width="2" stroke-dasharray="{dashes}"/>')
        parts.append(f'<text x="{x + 36}" y="22" font-size="12">{name}</text>')
    for index, measure in enumerate(names):
        parts += panel(index, rows, measure)
    return "\n".join(parts + ["</svg>", ""])


def main():
    machine, rows = load(TOP / "build/bench.csv")
    (TOP / "docs/BENCHMARKS.md").write_text(page(machine, rows))
    (TOP / "docs/benchmarks.svg").write_text(plot(rows))
    print("written: docs/BENCHMARKS.md, docs/benchmarks.svg")


if __name__ == "__main__":
    main()
