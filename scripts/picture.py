#!/usr/bin/env python3
"""Draws docs/laying-back.svg: a rank mask laid back onto the rows of self. Document 01's example.

    scripts/picture.py FILE
"""
import sys

SELF = "01101011"
RANK = "10010"

CELL = 56
LEFT = 150
TOP = 44
GAP = 118


def rows_and_ranks(self_mask):
    """The rank of each set row."""
    ranks = {}
    for row, bit in enumerate(self_mask):
        if bit == "1":
            ranks[row] = len(ranks)
    return ranks


def laid_back(self_mask, rank_mask):
    ranks = rows_and_ranks(self_mask)
    return "".join(rank_mask[ranks[row]] if row in ranks else "0" for row in range(len(self_mask)))


def cell(x, y, digit, under, colour):
    kind = "set" if digit == "1" else "unset"
    return [
        f'<rect class="{kind} {colour}" x="{x}" y="{y}" width="{CELL}" height="{CELL}" rx="6"/>',
        f'<text class="digit {kind}" x="{x + CELL / 2}" y="{y + 37}">{digit}</text>',
        f'<text class="under" x="{x + CELL / 2}" y="{y + CELL + 17}">{under}</text>',
    ]


def arrow(x1, y1, x2, y2, kept):
    middle = (y1 + y2) / 2
    kind = "kept" if kept else "left"
    return [f'<path class="{kind}" marker-end="url(#{kind})" d="M {x1} {y1} C {x1} {middle}, {x2} {middle}, {x2} {y2}"/>']


def label(y, name, note):
    return [
        f'<text class="name" x="16" y="{y + 26}">{name}</text>',
        f'<text class="note" x="16" y="{y + 45}">{note}</text>',
    ]


def centre(index, offset=0):
    return LEFT + offset + index * CELL + CELL / 2


def drawing():
    ranks = rows_and_ranks(SELF)
    result = laid_back(SELF, RANK)
    shift = (len(SELF) - len(RANK)) * CELL / 2
    rows_y, ranks_y, result_y = TOP, TOP + CELL + GAP, TOP + 2 * (CELL + GAP)
    parts = label(rows_y, "self", "rows kept so far")
    parts += label(ranks_y, "rank mask", "one bit a kept row")
    parts += label(result_y, "result", "laid back onto rows")
    for row, bit in enumerate(SELF):
        under = f"row {row}"
        parts += cell(LEFT + row * CELL, rows_y, bit, under, "row")
        parts += cell(LEFT + row * CELL, result_y, result[row], under, "row")
    for rank, bit in enumerate(RANK):
        parts += cell(LEFT + shift + rank * CELL, ranks_y, bit, f"rank {rank}", "rank")
    for row, rank in ranks.items():
        kept = RANK[rank] == "1"
        parts += arrow(centre(row), rows_y + CELL + 24, centre(rank, shift), ranks_y - 8, kept)
        parts += arrow(centre(rank, shift), ranks_y + CELL + 24, centre(row), result_y - 8, kept)
    width = LEFT + len(SELF) * CELL + 24
    height = result_y + CELL + 32
    style = """
    text { font-family: Helvetica, Arial, sans-serif; fill: #222; }
    .digit { font-size: 26px; text-anchor: middle; }
    .digit.unset { fill: #888; }
    .under { font-size: 12px; text-anchor: middle; fill: #666; }
    .name { font-size: 18px; font-weight: bold; }
    .note { font-size: 12px; fill: #666; }
    rect { stroke: #666; stroke-width: 1.2; }
    rect.unset { fill: #fff; }
    rect.set.row { fill: #cfe3f7; }
    rect.set.rank { fill: #f7dfb8; }
    path { fill: none; stroke-width: 1.8; }
    path.kept { stroke: #b3541e; }
    path.left { stroke: #bbb; stroke-dasharray: 4 4; }
    """
    heads = "".join(
        f'<marker id="{kind}" viewBox="0 0 8 8" refX="7" refY="4" markerWidth="7" markerHeight="7" orient="auto">'
        f'<path d="M 0 0 L 8 4 L 0 8 z" style="fill:{colour};stroke:none"/></marker>'
        for kind, colour in (("kept", "#b3541e"), ("left", "#bbb"))
    )
    title = f"self {SELF}, rank mask {RANK}, result {result}"
    lines = [
        f'<svg xmlns="http://www.w3.org/2000/svg" width="{width}" height="{height}" viewBox="0 0 {width} {height}" role="img">',
        f"<title>{title}</title>",
        f"<style>{style}</style>",
        f"<defs>{heads}</defs>",
        f'<rect x="0" y="0" width="{width}" height="{height}" style="fill:#fff;stroke:none"/>',
    ]
    return "\n".join(lines + parts + ["</svg>", ""])


def main():
    if len(sys.argv) != 2:
        sys.exit(__doc__)
    with open(sys.argv[1], "w", encoding="utf-8") as file:
        file.write(drawing())


main()
