#!/usr/bin/env python3
"""Draws docs/crates.svg from crates.txt: docs/draw_crates.py [--check]

A crate stands above all that it stands on, as near to what stands on it as that allows. A line goes down from a crate to
another that it stands on; where a longer way leads there too, none is drawn. What the kit brings is left out. The same
crates give the same picture. With --check nothing is written, and the exit status is 1 if another picture stands there.
"""
import math
import pathlib
import re
import sys

TOP = pathlib.Path(__file__).resolve().parent.parent
PICTURE = TOP / "docs" / "crates.svg"
LETTER, PAD, GAP, HIGH, STEP, EDGE = 8.4, 12, 22, 28, 66, 20
FILLS = {"definitions and theorems": "#ececec", "library": "#ffffff", "program": "#d9e8f6"}


def read():
    """What each crate stands on, crates alone."""
    below = {}
    for line in (TOP / "crates.txt").read_text(encoding="utf-8").splitlines():
        if line.strip() and not line.startswith("#"):
            name, _, others = line.partition(":")
            below[name.split()[0]] = others.split()
    return {name: [other for other in others if other in below] for name, others in below.items()}


def kind(name):
    source = TOP / "crates" / name / "src"
    if (source / "main.rt").exists():
        return "program"
    code = "".join(file.read_text(encoding="utf-8") for file in sorted(source.glob("*.rt")))
    return "library" if re.search(r"^\s*(?:pub )?(?:extern \"C\" )?fn ", code, re.M) else "definitions and theorems"


def reached(below, name):
    """All that a crate stands on, by any way."""
    found, todo = set(), list(below[name])
    while todo:
        other = todo.pop()
        if other not in found:
            found.add(other)
            todo += below[other]
    return found


def direct(below):
    """The lines that are drawn."""
    return {
        name: [to for to in others if not any(to in reached(below, via) for via in others if via != to)]
        for name, others in below.items()
    }


def layers(below):
    """The height of each crate: one above the highest below it, then up to one under the lowest above it."""
    low = {}

    def height(name):
        if name not in low:
            low[name] = 1 + max([height(other) for other in below[name]], default=-1)
        return low[name]

    for name in below:
        height(name)
    for name in sorted(below, key=lambda each: -low[each]):
        above = [low[user] for user in below if name in below[user]]
        if above:
            low[name] = min(above) - 1
    return low


def rows(lines, at):
    """The crates of each height, and what a line passes on its way down: (from, to, height)."""
    row = [[] for _ in range(1 + max(at.values()))]
    links = []
    for name, height in at.items():
        row[height].append(name)
    for name, others in lines.items():
        for other in others:
            last = name
            for height in range(at[name] - 1, at[other], -1):
                row[height].append((name, other, height))
                links.append((last, (name, other, height)))
                last = (name, other, height)
            links.append((last, other))
    return row, links


def width(spot):
    return len(spot) * LETTER + 2 * PAD if isinstance(spot, str) else 4


def settle(spots, wanted):
    """Places spots from left to right as near to where they are wanted as their widths allow."""
    def apart(left, right):
        return (width(left) + width(right)) / 2 + GAP

    right = [wanted[spots[0]]]
    for before, spot in zip(spots, spots[1:]):
        right.append(max(wanted[spot], right[-1] + apart(before, spot)))
    left = [wanted[spots[-1]]]
    for after, spot in zip(reversed(spots), reversed(spots[:-1])):
        left.append(min(wanted[spot], left[-1] - apart(spot, after)))
    return {spot: (x + y) / 2 for spot, x, y in zip(spots, right, reversed(left))}


def places(row, links):
    """Where each spot stands from left to right: near to what it is linked with, and in an order that crosses little."""
    near = {}
    for one, other in links:
        near.setdefault(one, []).append(other)
        near.setdefault(other, []).append(one)
    x = {spot: 120.0 * number for spots in row for number, spot in enumerate(spots)}
    for turn in range(60):
        for spots in row if turn % 2 else reversed(row):
            wanted = {}
            for spot in spots:
                ends = near.get(spot, [spot])
                wanted[spot] = math.fsum(x[end] for end in ends) / len(ends)
            if turn < 40:
                spots.sort(key=lambda spot: (wanted[spot], str(spot)))
            x.update(settle(spots, wanted))
    left = min(x[spot] - width(spot) / 2 for spot in x)
    return {spot: at - left + EDGE for spot, at in x.items()}


def draw():
    below = read()
    at = layers(below)
    row, links = rows(direct(below), at)
    x = places(row, links)
    wide = max(x[spot] + width(spot) / 2 for spot in x) + EDGE
    tall = 2 * EDGE + HIGH + STEP * (len(row) - 1) + 40

    def y(spot):
        return EDGE + STEP * (len(row) - 1 - (at[spot] if isinstance(spot, str) else spot[2]))

    out = [
        f'<svg xmlns="http://www.w3.org/2000/svg" width="{wide:.0f}" height="{tall:.0f}" viewBox="0 0 {wide:.0f} {tall:.0f}"'
        ' font-family="monospace" font-size="14">',
        "<title>The crates, each above what it stands on</title>",
        f'<rect width="{wide:.0f}" height="{tall:.0f}" fill="#ffffff"/>',
    ]
    for one, other in links:
        top = y(one) + (HIGH if isinstance(one, str) else HIGH / 2)
        foot = y(other) + (0 if isinstance(other, str) else HIGH / 2)
        half = (top + foot) / 2
        curve = f"M{x[one]:.1f},{top:.1f} C{x[one]:.1f},{half:.1f} {x[other]:.1f},{half:.1f} {x[other]:.1f},{foot:.1f}"
        out.append(f'<path d="{curve}" fill="none" stroke="#777777"/>')
    for name in below:
        left, fill = x[name] - width(name) / 2, FILLS[kind(name)]
        box = f'x="{left:.1f}" y="{y(name)}" width="{width(name):.1f}" height="{HIGH}" rx="4"'
        out.append(f'<rect {box} fill="{fill}" stroke="#333333"/>')
        out.append(f'<text x="{x[name]:.1f}" y="{y(name) + 19}" text-anchor="middle">{name}</text>')
    from_left = EDGE
    for name, fill in FILLS.items():
        out.append(f'<rect x="{from_left}" y="{tall - 30}" width="14" height="14" fill="{fill}" stroke="#333333"/>')
        out.append(f'<text x="{from_left + 20}" y="{tall - 18}">{name}</text>')
        from_left += 40 + len(name) * LETTER
    return "\n".join(out + ["</svg>"]) + "\n"


picture = draw()
if "--check" in sys.argv[1:]:
    if not PICTURE.exists() or PICTURE.read_text(encoding="utf-8") != picture:
        sys.exit("docs/draw_crates.py: docs/crates.svg is another picture; run docs/draw_crates.py")
    print("docs/draw_crates.py: docs/crates.svg is drawn from crates.txt")
else:
    PICTURE.write_text(picture, encoding="utf-8")
    print("docs/draw_crates.py: docs/crates.svg written")
