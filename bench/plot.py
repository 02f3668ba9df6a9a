#!/usr/bin/env python3
"""Draws time and nodes as devices grow: reads growth.tsv, writes ../docs/speed.svg."""

import csv
import math
from pathlib import Path

HERE = Path(__file__).resolve().parent
WIDTH, HEIGHT = 420, 320
LEFT, RIGHT, TOP, BOTTOM = 60, 150, 40, 45

# The lines of the left panel: a ratio's column, its label and colour. The base is 1 times itself.
TIMES = [
    (None, "unverified diagrams", "#1f77b4"),
    ("library_large", "library, 65,535 slots", "#d62728"),
    ("library_small", "library, 512 slots", "#ff7f0e"),
    ("dense", "dense iteration", "#2ca02c"),
    ("search", "forward search", "#9467bd"),
    ("library_flat", "library, flat shelf", "#8c564b"),
]
NODES = [("nodes", "nodes made", "#1f77b4"), ("fill", "peak fill", "#d62728"), ("scenes", "scenes", "#7f7f7f")]


def time_of(row, column):
    if column is None:
        return float(row["base_ms"])
    return float(row["base_ms"]) * float(row[column]) if row[column] else None


def lines_of(rows, columns, value):
    """Each line as its label, its colour and its points; a line without points is left out."""
    lines = []
    for column, label, colour in columns:
        points = [(int(row["devices"]), value(row, column)) for row in rows]
        points = [(x, y) for x, y in points if y is not None]
        if points:
            lines.append((label, colour, points))
    return lines


def ticks(low, high):
    return [10**k for k in range(math.floor(math.log10(low)), math.ceil(math.log10(high)) + 1)]


def number(value):
    return f"{value:,.0f}" if value >= 1 else f"{value:g}"


def spread(labels, gap=13):
    """Heights of the labels, moved down where one would cover the next."""
    moved, last = [], -math.inf
    for height, label, colour in sorted(labels):
        last = max(height, last + gap)
        moved.append((last, label, colour))
    return moved


def panel(at, title, lines):
    xs = [x for *_, points in lines for x, _ in points]
    ys = [y for *_, points in lines for _, y in points]
    marks = ticks(min(ys), max(ys))
    low, high = math.log10(marks[0]), math.log10(marks[-1])
    inner_width, inner_height = WIDTH - LEFT - 10, HEIGHT - TOP - BOTTOM

    def place_x(x):
        return at + LEFT + (x - min(xs)) / (max(xs) - min(xs)) * inner_width

    def place_y(y):
        return TOP + (high - math.log10(y)) / (high - low) * inner_height

    out = [f'<text x="{at + LEFT}" y="{TOP - 18}" font-weight="bold">{title}</text>']
    for mark in marks:
        y = place_y(mark)
        out.append(f'<line x1="{at + LEFT}" y1="{y:.1f}" x2="{at + WIDTH - 10}" y2="{y:.1f}" stroke="#ddd"/>')
        out.append(f'<text x="{at + LEFT - 6}" y="{y + 4:.1f}" text-anchor="end">{number(mark)}</text>')
    for x in sorted(set(xs)):
        out.append(f'<text x="{place_x(x):.1f}" y="{HEIGHT - BOTTOM + 18}" text-anchor="middle">{x}</text>')
    out.append(f'<text x="{at + LEFT + inner_width / 2:.0f}" y="{HEIGHT - 8}" text-anchor="middle">devices</text>')
    labels = []
    for label, colour, points in lines:
        path = " ".join(f"{place_x(x):.1f},{place_y(y):.1f}" for x, y in points)
        out.append(f'<polyline points="{path}" fill="none" stroke="{colour}" stroke-width="2"/>')
        out += [f'<circle cx="{place_x(x):.1f}" cy="{place_y(y):.1f}" r="2.5" fill="{colour}"/>' for x, y in points]
        labels.append((place_y(points[-1][1]), label, colour))
    for height, label, colour in spread(labels):
        out.append(f'<text x="{at + WIDTH - 4}" y="{height + 4:.1f}" fill="{colour}">{label}</text>')
    return out


def main():
    with open(HERE / "growth.tsv", encoding="utf-8") as file:
        rows = list(csv.DictReader(file, delimiter="\t"))
    step = WIDTH + RIGHT
    out = [
        f'<svg xmlns="http://www.w3.org/2000/svg" width="{2 * step}" height="{HEIGHT}" '
        'font-family="sans-serif" font-size="11" fill="#333">',
        '<rect width="100%" height="100%" fill="white"/>',
        *panel(0, "milliseconds for one plan", lines_of(rows, TIMES, time_of)),
        *panel(step, "nodes", lines_of(rows, NODES, lambda row, column: float(row[column]))),
        "</svg>",
    ]
    (HERE.parent / "docs" / "speed.svg").write_text("\n".join(out) + "\n", encoding="utf-8")


main()
