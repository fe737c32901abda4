#!/usr/bin/env python3
"""Draws the crates, from crates.txt: a box for each, above those that it rests on, in the colour of its group.

    tools/picture.py            writes docs/crates.svg
    tools/picture.py --check    says nothing, and ends with status 1 where docs/crates.svg is another picture

A group is the lines of crates.txt under one comment; its name is the comment's first words, up to a colon. An arrow that another
way of arrows already tells is left out.
"""
import os
import re
import sys
from xml.sax.saxutils import escape

ROOT = os.path.dirname(os.path.dirname(os.path.abspath(__file__)))
DRAWN = os.path.join(ROOT, "docs", "crates.svg")
COLOURS = ["#dbe9f6", "#fde6cf", "#e3f2dc", "#f3e0ef", "#f7f0c6", "#e6e6e6", "#d7f0ee"]
WIDE, HIGH, ACROSS, DOWN, EDGE = 104, 30, 22, 38, 20


def groups():
    """The groups in order: a name, and the crates with what they rest on, those of the toolchain left out."""
    found, rests = [], {}
    with open(os.path.join(ROOT, "crates.txt")) as f:
        blocks = f.read().split("\n\n")
    for block in blocks:
        lines = [line for line in block.splitlines() if line.strip()]
        said = " ".join(line.lstrip("# ") for line in lines if line.startswith("#"))
        crates = [re.match(r"(\w+)[^:]*:(.*)", line).groups() for line in lines if not line.startswith("#")]
        if crates:
            found.append((re.split(r"[:.]", said)[0], [name for name, _ in crates]))
            rests.update({name: words.split() for name, words in crates})
    return found, {name: [word for word in words if word in rests] for name, words in rests.items()}


def reached(name, rests, seen=None):
    """All that a crate rests on, by any way."""
    seen = set() if seen is None else seen
    for below in rests[name]:
        if below not in seen:
            seen.add(below)
            reached(below, rests, seen)
    return seen


def arrows(rests):
    """What is left of each crate's arrows without those that others tell."""
    return {name: [below for below in words if not any(below in reached(other, rests) for other in words)]
            for name, words in rests.items()}


def levels(rests):
    level = {}

    def of(name):
        if name not in level:
            level[name] = 1 + max([of(below) for below in rests[name]], default=-1)
        return level[name]

    for name in rests:
        of(name)
    return level


def placed(rests, kept):
    """The middle of each box: rows by level, each row in the order of what stands below it."""
    level, at = levels(rests), {}
    rows = [[name for name in rests if level[name] == k] for k in range(max(level.values()) + 1)]
    widest = max(len(row) for row in rows)
    for k, row in enumerate(rows):
        under = {name: [at[below][0] for below in kept[name]] for name in row}
        row.sort(key=lambda name: sum(under[name]) / len(under[name]) if under[name] else 0)
        left = EDGE + (widest - len(row)) * (WIDE + ACROSS) / 2 + (k % 2) * 18
        for i, name in enumerate(row):
            at[name] = (left + i * (WIDE + ACROSS) + WIDE / 2, 0)
    top = len(rows) - 1
    return {name: (x, EDGE + 20 + (top - level[name]) * (HIGH + DOWN) + HIGH / 2) for name, (x, _) in at.items()}


def drawn():
    named, rests = groups()
    kept = arrows(rests)
    at = placed(rests, kept)
    width = max(x for x, _ in at.values()) + WIDE / 2 + EDGE
    legend = max(y for _, y in at.values()) + HIGH + 24
    height = legend + 22 * len(named) + EDGE
    out = [f'<svg xmlns="http://www.w3.org/2000/svg" width="{width:.0f}" height="{height:.0f}" font-family="sans-serif" font-size="13">',
           '<defs><marker id="tip" markerWidth="8" markerHeight="8" refX="7" refY="4" orient="auto">'
           '<path d="M0,1 L7,4 L0,7 z" fill="#777"/></marker></defs>',
           f'<rect width="{width:.0f}" height="{height:.0f}" fill="white"/>',
           f'<text x="{EDGE}" y="{EDGE + 4}" font-size="15">The crates: each rests on those that its arrows lead to</text>']
    for name, words in kept.items():
        x, y = at[name]
        for below in words:
            u, v = at[below]
            out.append(f'<path d="M{x:.0f},{y + HIGH / 2:.0f} C{x:.0f},{y + HIGH / 2 + DOWN * 0.7:.0f} {u:.0f},{v - HIGH / 2 - DOWN * 0.7:.0f} '
                       f'{u:.0f},{v - HIGH / 2 - 2:.0f}" fill="none" stroke="#999" marker-end="url(#tip)"/>')
    for k, (said, crates) in enumerate(named):
        colour = COLOURS[k % len(COLOURS)]
        for name in crates:
            x, y = at[name]
            out.append(f'<rect x="{x - WIDE / 2:.0f}" y="{y - HIGH / 2:.0f}" width="{WIDE}" height="{HIGH}" rx="5" fill="{colour}" stroke="#555"/>'
                       f'<text x="{x:.0f}" y="{y + 5:.0f}" text-anchor="middle">{escape(name)}</text>')
        y = legend + 22 * k
        out.append(f'<rect x="{EDGE}" y="{y:.0f}" width="16" height="14" fill="{colour}" stroke="#555"/>'
                   f'<text x="{EDGE + 24}" y="{y + 12:.0f}">{escape(said)}</text>')
    return "\n".join([*out, "</svg>"]) + "\n"


def main():
    text = drawn()
    if "--check" in sys.argv:
        with open(DRAWN) as f:
            if f.read() != text:
                sys.exit("docs/crates.svg is not what tools/picture.py draws")
    else:
        with open(DRAWN, "w") as f:
            f.write(text)


main()
