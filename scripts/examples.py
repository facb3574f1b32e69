#!/usr/bin/env python3
"""Writes examples/: inputs of the program, each with the answer that document 01 gives, in a file of the same name and `.answer`.

    scripts/examples.py FOLDER

document   document 01's example
nodes      one sample of the store's 6,200 nodes: self has the nodes that hold more than 900 descriptors, the rank mask those of
           them that are in service. The result is who is to be looked at
leak       one node over eight weeks, a sample every ten minutes: self has the samples over 900, a few spikes and a leak that
           lasts from the third week to the sixth; the rank mask has those of them that are higher than an hour before. The
           result is when it rose
weeks      a text to read, and no input of the program, with its answer in it: one node over 52 weeks, its leaks as runs of rows
"""

import os
import sys

from masks import RUNS, WEEKS_RANK, WEEKS_RESULT, WEEKS_SELF, Operand, as_runs, as_words, density_of, mask_of, refusal_of, runs_in
from pairs import composition, route_of
from texts import answer_to, said

NODES = 6200
DAY = 6 * 24
WEEK = 7 * DAY
YEAR = 52 * WEEK
OVER = 900


def document():
    return b"self=01101011\nrank=10010\n"


def held_by(node):
    """Descriptors that a node holds in this one sample: a few nodes hold many."""
    return 300 + (node * 7919) % 400 + (650 if node % 137 == 5 else 0)


def in_service(node):
    return node % 4 != 1


def nodes():
    over = [held_by(node) > OVER for node in range(NODES)]
    serving = [in_service(node) for node in range(NODES) if over[node]]
    return said(over, serving)


def held_at(sample):
    """Descriptors that the node holds at a sample: a daily wave, a spike each ninth day, and the leak."""
    by_day = abs(sample % DAY - DAY // 2)
    spike = 500 if sample % (9 * DAY) < 3 else 0
    leak = min(sample - 2 * WEEK, 3 * WEEK) // 2 if 2 * WEEK <= sample < 6 * WEEK else 0
    return 500 + by_day + spike + leak


def leak():
    samples = range(8 * WEEK)
    over = [held_at(sample) > OVER for sample in samples]
    rising = [held_at(sample) > held_at(sample - 6) for sample in samples if over[sample]]
    return said(over, rising)


# From when on the node leaks, one descriptor more each hour, and when it is restarted.
LEAKS = [(4 * WEEK, 11 * WEEK), (17 * WEEK, 23 * WEEK + 3 * DAY), (30 * WEEK, 41 * WEEK)]
# When the node gets release 7, and when the next one.
RELEASE = (9 * WEEK, 36 * WEEK)

WEEKS = """\
One node over 52 weeks, a sample every ten minutes: 52,416 rows, 1,008 of them a week. It leaked three times, each time until it
was restarted. A run is its first row and the row past its last; between two runs at least one row is not set.

Self has the samples at which the node held more than 900 descriptors:

{self}

The next stage sees these rows alone, and counts them from 0: they are ranks. It is asked which of them fall into the time of
release 7, which the node ran in {release}. Its rank mask is one run, from the middle of the first leak's run to the
middle of the third's:

{rank}

Composed, the one run of ranks is three runs of rows. The result is {words} words; converted to runs it is {numbers} numbers:

    refusal=0
    route={route}
    density={density}
{result}
"""


def held_in_year(sample):
    leaked = [(sample - begun) // 6 for begun, restarted in LEAKS if begun <= sample < restarted]
    return 400 + sum(leaked)


def weeks_of(first, past):
    return f"weeks {first // WEEK + 1} to {(past - 1) // WEEK + 1}"


def in_lines(mask, note_of):
    """The mask as runs, a line for each, with a note after it."""
    operand = Operand(RUNS, len(mask), rows=as_runs(mask))
    assert refusal_of(operand) == 0 and mask_of(operand) == mask
    lines = [f"length={operand.length}", "form=runs", f"count={sum(mask)}"]
    lines += [f"run={first},{past}".ljust(20) + note_of(first, past) for first, past in runs_in(operand.rows)]
    return "\n".join("    " + line for line in lines)


def weeks():
    over = [held_in_year(sample) > OVER for sample in range(YEAR)]
    released = [RELEASE[0] <= sample < RELEASE[1] for sample in range(YEAR) if over[sample]]
    result = composition(over, released)
    # The recorded cases have these numbers too.
    assert [as_runs(mask) for mask in (over, released, result)] == [WEEKS_SELF, WEEKS_RANK, WEEKS_RESULT]

    def note_of(first, past):
        ranks = f"ranks {sum(over[:first]):,} to {sum(over[:past]) - 1:,}"
        return f"{past - first:,} rows in {weeks_of(first, past)}, {ranks}"

    return WEEKS.format(
        self=in_lines(over, note_of),
        release=weeks_of(*RELEASE),
        rank=in_lines(released, lambda first, past: f"{past - first:,} ranks"),
        words=len(as_words(result)),
        numbers=len(as_runs(result)),
        route=route_of((RUNS, RUNS), over, released),
        density=density_of(result),
        result=in_lines(result, note_of),
    )


def main():
    if len(sys.argv) != 2:
        sys.exit(__doc__)
    for example in (document, nodes, leak):
        name = os.path.join(sys.argv[1], example.__name__)
        text = example()
        for path, content in ((name, text), (name + ".answer", answer_to(text))):
            with open(path, "wb") as file:
                file.write(content)
    with open(os.path.join(sys.argv[1], "weeks"), "w", encoding="utf-8") as file:
        file.write(weeks())


main()
