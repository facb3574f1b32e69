#!/usr/bin/env python3
"""Draws docs/house.svg: the crates as rooms, each standing on those that it leans on. From crates.txt, and from what stands in each src/.

    scripts/house.py FILE
"""
import pathlib
import re
import sys

ROOT = pathlib.Path(__file__).resolve().parent.parent

WIDE, HIGH = 158, 48
SLOT = 14
ASIDE, BELOW = 20, 50
EDGE = 24

KINDS = {
    "words": "definitions and theorems, no code",
    "code": "a library",
    "program": "a program",
}

# What a newcomer finds in a room; a crate that is not here has its name alone.
NOTES = {
    "rows": "the vocabulary",
    "rules": "the book of rules",
    "lines": "the program's page of it",
    "cells": "the test boundary's page",
    "network": "deposit byte by byte",
    "places": "a table of set bits",
    "word": "deposit and select",
    "lent": "lent words, read",
    "laid": "lent words, written",
    "fills": "runs, laid and listed",
    "turns": "the runs of a mask",
    "operand": "forms, checks, answers",
    "mask": "conversions",
    "runs": "runs as records, the edge",
    "books": "rows and ranks as bits",
    "marks": "routes 4 to 6",
    "deposits": "routes 7 to 10",
    "kept": "kernels of runs of ranks",
    "under": "kernels of runs of self",
    "routes": "the route table",
    "rowwise": "row by row",
    "bitops": "set operations",
    "by_route": "the kernel of a route",
    "intersect_by_rank": "composition by rank",
    "composer": "streams",
    "text": "the program's lines",
    "reads": "a reader, to its end",
    "host": "the C library",
    "probe": "the C boundary for tests",
    "claims": "the demands, of contracts",
    "recorded": "runs recorded cases",
    "density": "compares two tests",
    "texts": "runs stored inputs",
    "intersect": "the program",
}


def house():
    """Every crate with the crates of this house that it depends on, in the file's order."""
    found = {}
    for line in (ROOT / "crates.txt").read_text(encoding="utf-8").splitlines():
        if line and not line.startswith("#"):
            name, deps = line.replace(" staticlib:", ":").split(":")
            found[name] = deps.split()
    return {name: [dep for dep in deps if dep in found] for name, deps in found.items()}


def kind(name):
    src = ROOT / "crates" / name / "src"
    if (src / "main.rt").exists():
        return "program"
    texts = (file.read_text(encoding="utf-8") for file in src.rglob("*.rt"))
    return "code" if any(re.search(r"^\s*(pub )?(extern \"C\" )?fn ", text, re.M) for text in texts) else "words"


def reached(rooms, name):
    """Everything that a crate leans on, near or far."""
    out = set()
    for dep in rooms[name]:
        out |= {dep} | reached(rooms, dep)
    return out


def leans(rooms):
    """What each crate leans on that nothing else it leans on leans on: the rest is said by these."""
    return {
        name: [dep for dep in deps if not any(dep in reached(rooms, other) for other in deps)]
        for name, deps in rooms.items()
    }


def levels(rooms):
    """The storey of each crate, the ground 0: one above the highest of what it leans on."""
    level = {}
    for name in rooms:
        level[name] = 1 + max((level[dep] for dep in rooms[name]), default=-1)
    return level


def beams(rooms):
    """For each crate and each that it leans on, what the beam passes: both rooms, and a slot in every storey between."""
    level = levels(rooms)
    return [
        [name] + [(name, dep, i) for i in range(level[name] - 1, level[dep], -1)] + [dep]
        for name, deps in leans(rooms).items()
        for dep in deps
    ]


def placed(rooms):
    """The middle of each room and slot. A storey's stand in the order of what they lean on, and of what leans on them."""
    level = levels(rooms)
    floors = [[name for name in rooms if level[name] == i] for i in range(max(level.values()) + 1)]
    under, above = {}, {}
    for beam in beams(rooms):
        for step in beam[1:-1]:
            floors[step[2]].append(step)
        for upper, lower in zip(beam, beam[1:]):
            under.setdefault(upper, []).append(lower)
            above.setdefault(lower, []).append(upper)

    def wide(step):
        return WIDE if step in rooms else SLOT

    def length(floor):
        return sum(wide(step) + ASIDE for step in floor) - ASIDE

    longest = max(length(floor) for floor in floors)
    place = {}

    def set_out():
        for i, floor in enumerate(floors):
            x = EDGE + (longest - length(floor)) / 2
            y = EDGE + (len(floors) - 1 - i) * (HIGH + BELOW) + HIGH / 2
            for step in floor:
                place[step] = (x + wide(step) / 2, y)
                x += wide(step) + ASIDE

    def mean(step, others):
        return sum(place[other][0] for other in others) / len(others) if others else place[step][0]

    set_out()
    for _ in range(12):
        for neighbours in (under, above):
            for floor in floors:
                floor.sort(key=lambda step: mean(step, neighbours.get(step, [])))
                set_out()
    return place, EDGE * 2 + longest, EDGE * 2 + len(floors) * (HIGH + BELOW) - BELOW


def room(x, y, name):
    note = NOTES.get(name, "")
    return [
        f'<rect class="{kind(name)}" x="{x - WIDE / 2:g}" y="{y - HIGH / 2:g}" width="{WIDE}" height="{HIGH}" rx="6"/>',
        f'<text class="name" x="{x:g}" y="{y - 2 if note else y + 5:g}">{name}</text>',
        f'<text class="inside" x="{x:g}" y="{y + 15:g}">{note}</text>',
    ]


def line(place, beam):
    """From under the upper room, straight through each slot, to the top of the lower one."""
    x, y = place[beam[0]]
    y += HIGH / 2
    path = [f"M {x:g} {y:g}"]
    for step in beam[1:]:
        to, end = place[step]
        end -= HIGH / 2 + (0 if step != beam[-1] else 3)
        path.append(f"C {x:g} {y + BELOW * 0.6:g}, {to:g} {end - BELOW * 0.6:g}, {to:g} {end:g}")
        x, y = to, end
        if step != beam[-1]:
            y += HIGH
            path.append(f"L {x:g} {y:g}")
    return f'<path class="leans" marker-end="url(#foot)" d="{" ".join(path)}"/>'


def drawing():
    rooms = house()
    place, width, height = placed(rooms)
    parts = [line(place, beam) for beam in beams(rooms)]
    for name in rooms:
        parts += room(*place[name], name)
    for i, (what, note) in enumerate(KINDS.items()):
        x, y = EDGE, height - EDGE - (len(KINDS) - i) * 24 + 18
        parts.append(f'<rect class="{what}" x="{x}" y="{y - 12}" width="22" height="15" rx="3"/>')
        parts.append(f'<text class="note" x="{x + 30}" y="{y}">{note}</text>')
    style = """
    text { font-family: Helvetica, Arial, sans-serif; fill: #222; }
    .name { font-size: 16px; text-anchor: middle; }
    .inside { font-size: 11px; text-anchor: middle; fill: #555; }
    .note { font-size: 12px; fill: #666; }
    rect { stroke: #666; stroke-width: 1.2; }
    rect.words { fill: #f7dfb8; }
    rect.code { fill: #cfe3f7; }
    rect.program { fill: #e8e8e8; }
    path.leans { fill: none; stroke: #888; stroke-width: 1.5; }
    """
    foot = (
        '<marker id="foot" viewBox="0 0 8 8" refX="7" refY="4" markerWidth="6" markerHeight="6" orient="auto">'
        '<path d="M 0 0 L 8 4 L 0 8 z" style="fill:#888;stroke:none"/></marker>'
    )
    lines = [
        f'<svg xmlns="http://www.w3.org/2000/svg" width="{width:g}" height="{height:g}" viewBox="0 0 {width:g} {height:g}" role="img">',
        f"<title>The crates: {', '.join(rooms)}; each leans on those below that its arrows reach</title>",
        f"<style>{style}</style>",
        f"<defs>{foot}</defs>",
        f'<rect x="0" y="0" width="{width:g}" height="{height:g}" style="fill:#fff;stroke:none"/>',
    ]
    return "\n".join(lines + parts + ["</svg>", ""])


def main():
    if len(sys.argv) != 2:
        sys.exit(__doc__)
    with open(sys.argv[1], "w", encoding="utf-8") as file:
        file.write(drawing())


main()
