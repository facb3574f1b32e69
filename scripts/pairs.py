#!/usr/bin/env python3
"""Writes recorded cases of the set operations and of composition, with the answers that documents 01 and 02 give.

    scripts/pairs.py FILE

masks.py says how the file is told. A case is ten lines:

    operation                        1 and, 2 or, 3 and-not, 4 not, 5 composition
    form length start claimed        the first operand, self in a composition; form: 0 all, 1 none, 2 words, 3 list, 4 runs
    its lent words
    its lent rows, of runs their numbers in pairs
    form length start claimed        the second operand, the rank mask in a composition
    its lent words
    its lent rows
    the output slice before
    refusal operand count route m e  the density is m / 2^e exactly
    the output slice after, all of it

Not has one operand: the second is told as none of length 0 then.
"""

import sys
from collections import Counter, namedtuple
from itertools import combinations

from masks import (
    ALL,
    FULL,
    LIMIT,
    LIST,
    MOST_OUT,
    NONE,
    RUNS,
    SMALL_LENGTHS,
    TOP,
    WEEKS_LENGTH,
    WEEKS_RANK,
    WEEKS_RESULT,
    WEEKS_SELF,
    WORDS,
    Dice,
    Operand,
    as_words,
    density_of,
    flat_operand,
    has_room,
    held_by,
    in_view,
    list_operand,
    mask_of,
    numbers,
    random_operand,
    refusal_of,
    runs_in,
    runs_operand,
    spoilt,
    told,
    told_answer,
    words_for,
    words_operand,
    write_cases,
)

AND, OR, AND_NOT, NOT, COMPOSITION = 1, 2, 3, 4, 5
OF_TWO = (AND, OR, AND_NOT)
FORMS = (ALL, NONE, WORDS, LIST, RUNS)
STARTS = (0, 1, 17, 63)
LENGTHS = SMALL_LENGTHS + [600]

Case = namedtuple("Case", "operation first second before")
Answer = namedtuple("Answer", "refusal operand count route density after")


# What documents 01 and 02 say.


def counts_as_list(form):
    """For the route table, and for the set operations."""
    return form in (LIST, RUNS)


def refusal_in(operation, operand):
    if operation != COMPOSITION and counts_as_list(operand.form):
        return 12
    return refusal_of(operand)


def fit(operation, masks):
    """Where they do not, it is 7."""
    if operation == NOT:
        return True
    if operation == COMPOSITION:
        return len(masks[1]) == sum(masks[0])
    return len(masks[1]) == len(masks[0])


def composition(self_mask, rank_mask):
    """A row is set if self has it and the rank mask has its rank, the number of self's set rows before it: each set row takes the next."""
    ranks = iter(rank_mask)
    return [is_set and next(ranks) for is_set in self_mask]


def result_of(operation, masks):
    if operation == NOT:
        return [not x for x in masks[0]]
    if operation == COMPOSITION:
        return composition(*masks)
    both = list(zip(*masks))
    if operation == AND:
        return [x and y for x, y in both]
    if operation == OR:
        return [x or y for x, y in both]
    return [x and not y for x, y in both]


def is_full(mask):
    return len(mask) > 0 and all(mask)


def route_of(forms, self_mask, rank_mask):
    """The first line of the route table that fits."""
    if is_full(self_mask):
        return 1
    if is_full(rank_mask):
        return 2
    if not any(self_mask) or not any(rank_mask):
        return 3
    if counts_as_list(forms[0]):
        return 4 if counts_as_list(forms[1]) else 5
    if 32 * sum(rank_mask) < len(rank_mask):
        return 6
    by_the_loop_form = 16 * sum(self_mask) < len(self_mask)
    if counts_as_list(forms[1]):
        return 8 if by_the_loop_form else 7
    return 10 if by_the_loop_form else 9


def answer_to(case):
    operands = [case.first] if case.operation == NOT else [case.first, case.second]
    for number, operand in enumerate(operands, 1):
        refusal = refusal_in(case.operation, operand)
        if refusal != 0:
            return Answer(refusal, number, 0, 0, 0.0, case.before)
    masks = [mask_of(operand) for operand in operands]
    if not fit(case.operation, masks):
        return Answer(7, 0, 0, 0, 0.0, case.before)
    result = result_of(case.operation, masks)
    words = as_words(result)
    if len(case.before) < len(words):
        return Answer(8, 0, 0, 0, 0.0, case.before)
    route = route_of([operand.form for operand in operands], *masks) if case.operation == COMPOSITION else 0
    return Answer(0, 0, sum(result), route, density_of(result), words + case.before[len(words) :])


# The file.


def lines_of_operand(operand):
    return [
        numbers(operand.form, operand.length, operand.start, operand.claimed),
        told(operand.words),
        told(operand.rows),
    ]


def lines_of(answered):
    case, answer = answered
    lines = [numbers(case.operation)]
    lines += lines_of_operand(case.first) + lines_of_operand(case.second)
    lines.append(told(case.before))
    lines.append(told_answer(*answer[:5]))
    lines.append(told(answer.after))
    return lines


# The cases.


def unused():
    return Operand(NONE, 0)


def output(dice, size):
    """Old content: all ones half of the time, so that bits past a length show whether they were cleared."""
    return [FULL] * size if dice.below(2) == 0 else dice.words(size)


def case_of(dice, operation, first, second, more=0):
    """With an output that is by so many words longer than what is needed."""
    if operation == NOT:
        second = unused()
    size = words_for(first.length) + more
    return Case(operation, first, second, output(dice, max(size, 0)))


def rooms(dice, operation, first, second):
    """The output exactly long enough, a word short, and longer."""
    return [case_of(dice, operation, first, second, more) for more in (0, -1, 2)]


def exactly(dice, length, count):
    """A mask with so many rows."""
    mask = [False] * length
    for _ in range(count):
        row = dice.below(length)
        while mask[row]:
            row = (row + 1) % length
        mask[row] = True
    return mask


def mask_in(dice, form, length, sixteenths):
    """So many rows of sixteen set; for runs, where it is about half, fewer and longer runs than chance makes."""
    if form == RUNS and sixteenths == 8:
        return dice.turning(length, 30)
    return dice.mask(length, sixteenths)


def operand_in(dice, form, mask, start):
    """The mask in this form; all and none take its length alone."""
    if form == WORDS:
        return words_operand(dice, mask, start)
    if form == LIST:
        return list_operand(dice, mask)
    if form == RUNS:
        return runs_operand(dice, mask)
    return flat_operand(dice, form, len(mask))


def count_of(operand):
    return sum(mask_of(operand))


def set_operations_at_small_lengths(dice):
    cases = []
    for length in LENGTHS:
        for first in (ALL, NONE, WORDS):
            for second in (ALL, NONE, WORDS):
                for operation in OF_TWO:
                    a = operand_in(dice, first, dice.mask(length, 8), dice.among(STARTS))
                    b = operand_in(dice, second, dice.mask(length, 8), dice.among(STARTS))
                    cases.append(case_of(dice, operation, a, b, dice.among([0, 0, 1])))
        for form in (ALL, NONE):
            cases.append(case_of(dice, NOT, flat_operand(dice, form, length), unused()))
        for start in STARTS:
            a = words_operand(dice, dice.mask(length, 8), start)
            cases.append(case_of(dice, NOT, a, unused(), dice.below(2)))
    return cases


def set_operations_at_every_start(dice):
    cases = []
    for operation in OF_TWO:
        for s in STARTS:
            for t in STARTS:
                length = dice.among([128, 129, 150])
                a = words_operand(dice, dice.mask(length, 8), s)
                b = words_operand(dice, dice.mask(length, 8), t)
                cases.append(case_of(dice, operation, a, b))
    return cases


def full_and_empty_sets(dice):
    """By count: words that are full, or empty, and all and none beside them."""
    cases = []
    kinds = [(ALL, 0), (NONE, 0), (WORDS, 0), (WORDS, 16), (WORDS, 8)]
    for first, x in kinds:
        for second, y in kinds:
            length = dice.among([64, 100])
            a = operand_in(dice, first, dice.mask(length, x), dice.among(STARTS))
            b = operand_in(dice, second, dice.mask(length, y), dice.among(STARTS))
            cases.append(case_of(dice, dice.among(OF_TWO), a, b))
    for sixteenths in (0, 16):
        cases.append(case_of(dice, NOT, words_operand(dice, dice.mask(130, sixteenths), 5), unused()))
    return cases


def bad_operands(dice):
    """Each refusal of an operand, some with more than one."""
    right = words_operand(dice, exactly(dice, 100, 40), 17)
    return [
        Operand(ALL, LIMIT + 1),
        Operand(NONE, 2**64 - 1),
        Operand(WORDS, LIMIT + 1, 64, 9, [FULL]),
        Operand(LIST, LIMIT + 1, rows=[5, 5]),
        Operand(WORDS, 64, 64, 9, []),
        Operand(WORDS, 10, 2**64 - 1, 10, [FULL] * 2),
        Operand(WORDS, 64, 1, 9, [FULL]),
        Operand(WORDS, 0, 63, 0, []),
        Operand(WORDS, 100, 17, 41, right.words),
        Operand(WORDS, 100, 17, 39, right.words),
        Operand(WORDS, 10, 3, 2**64 - 1, [FULL]),
        Operand(LIST, 10, rows=[3, 9, 9]),
        Operand(LIST, 10, rows=[12, 11]),
        Operand(LIST, 10, rows=[3, 10]),
        Operand(LIST, 0, rows=[0]),
        Operand(RUNS, LIMIT + 1, rows=[5, 5]),
        Operand(RUNS, 10, rows=[3, 5, 5, 7]),
        Operand(RUNS, 10, rows=[3, 5, 7]),
        Operand(RUNS, 0, rows=[0, 1]),
    ]


def more_bad_runs():
    """Empty, falling, past the length, near 2^32."""
    return [Operand(RUNS, 10, rows=rows) for rows in ([3, 3], [7, 9, 1, 3], [3, 11], [TOP - 1, TOP], [1, 3, TOP, 5])]


def set_operations_refused(dice):
    """The other operand is right, and as long where that is possible."""
    cases = []
    for operation in OF_TWO + (NOT,):
        for bad in bad_operands(dice) + more_bad_runs()[:2] + [Operand(form, 10, rows=[3, 9]) for form in (LIST, RUNS)]:
            right = flat_operand(dice, dice.among([ALL, NONE]), min(bad.length, 100))
            cases.append(Case(operation, bad, right if operation != NOT else unused(), output(dice, 2)))
            if operation != NOT:
                cases.append(Case(operation, right, bad, output(dice, 2)))
    return cases


def two_bad_operands(dice, operations):
    """The first operand's refusal is the answer. Nowhere to write, so that 8 holds too. Of those with runs every second one."""
    cases = []
    for i, first in enumerate(bad_operands(dice)):
        for j, second in enumerate(bad_operands(dice)):
            if RUNS not in (first.form, second.form) or (i + j) % 2 == 0:
                cases.append(Case(operations[(i + j) % len(operations)], first, second, []))
    return cases


def unequal_lengths(dice):
    cases = []
    for operation in OF_TWO:
        for a, b in ((0, 1), (1, 0), (64, 65), (65, 64), (129, 128), (10, 100), (LIMIT, 1)):
            first, second = flat_operand(dice, ALL, a), flat_operand(dice, ALL, b)
            cases.append(Case(operation, first, second, output(dice, 3)))
            if a < 1000:
                first = words_operand(dice, dice.mask(a, 8), dice.among(STARTS))
                second = words_operand(dice, dice.mask(b, 8), dice.among(STARTS))
                # Nowhere to write: 7 comes before 8.
                cases.append(Case(operation, first, second, dice.among([output(dice, 3), []])))
    return cases


def rooms_of_set_operations(dice):
    cases = []
    for operation in OF_TWO + (NOT,):
        for length in (1, 64, 65, 128, 150):
            first = words_operand(dice, dice.mask(length, 8), dice.among(STARTS))
            second = words_operand(dice, dice.mask(length, 8), dice.among(STARTS))
            cases += rooms(dice, operation, first, second)
    return cases


def rising(size):
    """Words that rise by an even step differ only in their middle bits, also when they are shifted: few stretches."""
    return [0x5A3C000000000F00 + 0x12345678 * i for i in range(size)]


def set_operations_at_the_limit(dice):
    size = words_for(LIMIT)
    before = [FULL] * (size + 2)
    same = Operand(WORDS, LIMIT, 0, 20 * size, [0x00F0FFFF00000000] * size)
    lent = rising(size + 1)
    views = [Operand(WORDS, LIMIT, start, sum(in_view(lent, start, LIMIT)), lent) for start in (0, 1, 63)]
    full, empty = Operand(ALL, LIMIT), Operand(NONE, LIMIT)
    high = Operand(WORDS, LIMIT, 1, 5 * size, [0xF800000000000000] * (size + 1))
    cases = [
        Case(AND, views[0], full, before),
        Case(AND, same, same, before),
        Case(OR, views[1], high, before),
        Case(OR, views[2], empty, before),
        Case(AND_NOT, views[0], high, before),
        Case(AND_NOT, full, views[1], before),
        Case(NOT, views[2], unused(), before),
        Case(AND, full, full, before[:size]),
        Case(OR, empty, full, before[: size - 1]),
        Case(NOT, empty, unused(), before),
    ]
    return cases


def random_set_operations(dice, how_many):
    cases = []
    while len(cases) < how_many:
        first, second = random_operand(dice), random_operand(dice)
        if counts_as_list(first.form) or counts_as_list(second.form):
            continue
        if second.length != first.length and dice.below(10) > 0:
            mask = dice.mask(first.length, dice.among([0, 1, 8, 15, 16]))
            second = operand_in(dice, second.form, mask, dice.below(64))
        operation = dice.among([AND, OR, AND_NOT, NOT])
        cases.append(case_of(dice, operation, spoilt(dice, first), spoilt(dice, second), dice.among([0, 0, 0, 1, 5, -1])))
    return cases


def set_operations(dice):
    cases = set_operations_at_small_lengths(dice)
    cases += set_operations_at_every_start(dice)
    cases += full_and_empty_sets(dice)
    cases += set_operations_refused(dice)
    cases += two_bad_operands(dice, OF_TWO)
    cases += unequal_lengths(dice)
    cases += rooms_of_set_operations(dice)
    cases += set_operations_at_the_limit(dice)
    cases += random_set_operations(dice, 80)
    return cases


def rank_operand(dice, first, form, sixteenths, start):
    """A rank mask as long as self's count."""
    return operand_in(dice, form, mask_in(dice, form, count_of(first), sixteenths), start)


def compositions_at_small_lengths(dice):
    cases = []
    for length in LENGTHS:
        for form in FORMS:
            for rank_form in FORMS:
                a = operand_in(dice, form, mask_in(dice, form, length, dice.among([1, 8, 12])), dice.among(STARTS))
                b = rank_operand(dice, a, rank_form, 8, dice.among(STARTS))
                cases.append(case_of(dice, COMPOSITION, a, b, dice.among([0, 0, 1])))
    return cases


def compositions_at_every_start(dice):
    cases = []
    for s in STARTS:
        for t in STARTS:
            a = words_operand(dice, dice.mask(dice.among([129, 150]), 8), s)
            cases.append(case_of(dice, COMPOSITION, a, rank_operand(dice, a, WORDS, 8, t)))
            a = words_operand(dice, exactly(dice, 1200, 70), s)
            cases.append(case_of(dice, COMPOSITION, a, rank_operand(dice, a, WORDS, 8, t)))
    return cases


def full_and_empty_compositions(dice):
    """By count, in every form."""
    kinds = [(ALL, 0), (NONE, 0)] + [(form, sixteenths) for form in (WORDS, LIST, RUNS) for sixteenths in (0, 8, 16)]
    cases = []
    for form, x in kinds:
        for rank_form, y in kinds:
            a = operand_in(dice, form, mask_in(dice, form, dice.among([64, 100]), x), dice.among(STARTS))
            cases.append(case_of(dice, COMPOSITION, a, rank_operand(dice, a, rank_form, y, dice.among(STARTS))))
    return cases


def around_a_sixteenth(dice):
    """16 x self count below self length, equal to it, and above."""
    cases = []
    for length in (159, 160, 161):
        for count in (9, 10, 11):
            for form in (WORDS, LIST, RUNS):
                a = words_operand(dice, exactly(dice, length, count), dice.among(STARTS))
                b = operand_in(dice, form, exactly(dice, count, 4), dice.among(STARTS))
                cases.append(case_of(dice, COMPOSITION, a, b))
    return cases


def around_a_thirty_second(dice):
    """32 x rank count below rank length, equal to it, and above; self on either side of its sixteenth."""
    cases = []
    for length in (63, 64, 65):
        for count in (1, 2, 3):
            for form in (WORDS, LIST, RUNS):
                for rows in (200, 1100):
                    a = words_operand(dice, exactly(dice, rows, length), dice.among(STARTS))
                    b = operand_in(dice, form, exactly(dice, length, count), dice.among(STARTS))
                    cases.append(case_of(dice, COMPOSITION, a, b))
    return cases


def compositions_refused(dice):
    """The other operand is right, in every form."""
    cases = []
    for form, bad_runs in zip(FORMS, more_bad_runs()):
        for bad in bad_operands(dice) + [bad_runs]:
            right = operand_in(dice, form, mask_in(dice, form, 70, 8), dice.among(STARTS))
            cases.append(Case(COMPOSITION, bad, right, output(dice, 2)))
            cases.append(Case(COMPOSITION, right, bad, output(dice, 2)))
        # Past the rank mask's length, and not past self's.
        past = Operand(RUNS, count_of(right), rows=[0, count_of(right) + 1])
        cases.append(Case(COMPOSITION, right, past, output(dice, 2)))
    return cases


def wrong_rank_lengths(dice):
    """A rank mask by one too short or too long, of no rows, or as long as self."""
    cases = []
    for form in FORMS:
        a = operand_in(dice, form, mask_in(dice, form, 100, 8), dice.among(STARTS))
        count = count_of(a)
        for length in sorted({count - 1, count + 1, 0, 100} - {count, -1}):
            for rank_form in FORMS:
                b = operand_in(dice, rank_form, mask_in(dice, rank_form, length, 8), dice.among(STARTS))
                # Nowhere to write: 7 comes before 8.
                cases.append(Case(COMPOSITION, a, b, dice.among([output(dice, 3), []])))
    return cases


def rooms_of_compositions(dice):
    cases = []
    for form in FORMS:
        for rank_form in (WORDS, LIST, RUNS):
            for length in (1, 64, 65, 150):
                a = operand_in(dice, form, mask_in(dice, form, length, 8), dice.among(STARTS))
                cases += rooms(dice, COMPOSITION, a, rank_operand(dice, a, rank_form, 8, dice.among(STARTS)))
    return cases


# Runs. Rows are picked from few, so that every end of a run meets every end of a word, or of another run.

WORD_ENDS = (0, 63, 64, 65, 127, 128, 129)


def over_ones(dice, first, second):
    """Composed over all ones."""
    return Case(COMPOSITION, first, second, [FULL] * (words_for(first.length) + dice.below(2)))


def some_of(rows):
    """One run and two that begin and end at these."""
    return list(combinations(rows, 2)) + list(combinations(rows, 4))


def self_runs_across_words(dice):
    """The rank mask in every form in turn, its rows every second one, or a few runs."""
    cases = []
    for number, rows in enumerate(some_of(WORD_ENDS)):
        a = Operand(RUNS, dice.among([rows[-1], 129, 130, 200]), rows=rows)
        count = count_of(a)
        mask = dice.among([[rank % 2 == 0 for rank in range(count)], dice.turning(count, 30), dice.mask(count, 8)])
        cases.append(over_ones(dice, a, operand_in(dice, FORMS[number % 5], mask, dice.among(STARTS))))
    return cases


def rank_runs_across_words(dice):
    """Self has every second row, so 32 ranks to a word; the runs of ranks end with a word, just before its end, and just after."""
    cases = []
    for number, rows in enumerate(some_of((0, 31, 32, 33, 63, 64, 65))):
        mask = [row % 2 == number % 2 for row in range(130 + number % 7)]
        a = operand_in(dice, (WORDS, LIST, WORDS, RUNS)[number % 4], mask, dice.among(STARTS))
        cases.append(over_ones(dice, a, Operand(RUNS, sum(mask), rows=rows)))
    return cases


def rank_runs_inside_words(dice):
    """Runs of ranks that begin and end anywhere in self's words, dense and sparse."""
    cases = []
    for count, length in ((150, 260), (70, 1300), (200, 210)):
        for longest in (4, 40, 100):
            for start in (dice.among(STARTS), dice.below(64)):
                a = words_operand(dice, exactly(dice, length, count), start)
                cases.append(over_ones(dice, a, runs_operand(dice, dice.turning(count, longest))))
    return cases


def runs_against_runs(dice):
    """Self's runs hold ranks 0 to 64, 65 to 114 and 115; those of ranks end within them, at their ends, and in the next one."""
    cases = []
    mask = held_by(runs_in([5, 70, 80, 130, 140, 141]), 150)
    for number, rows in enumerate(some_of((0, 64, 65, 66, 114, 115, 116))):
        b = operand_in(dice, (RUNS, RUNS, LIST, WORDS)[number % 4], held_by(runs_in(rows), 116), dice.among(STARTS))
        cases.append(over_ones(dice, runs_operand(dice, mask), b))
    return cases


def runs_of_one_row(dice):
    """Every second row, and of these every second rank, or all but a few."""
    cases = []
    mixes = [(form, RUNS) for form in (WORDS, LIST)] + [(RUNS, form) for form in FORMS]
    for first in (0, 1):
        mask = [row % 2 == first for row in range(129)]
        ranks = [rank % 2 != first for rank in range(sum(mask))]
        for form, rank_form in mixes:
            for kept in (ranks, exactly(dice, len(ranks), 62)):
                a, b = operand_in(dice, form, mask, dice.among(STARTS)), operand_in(dice, rank_form, kept, dice.among(STARTS))
                cases.append(over_ones(dice, a, b))
    return cases


def compositions_in_runs(dice):
    cases = self_runs_across_words(dice)
    cases += rank_runs_across_words(dice)
    cases += rank_runs_inside_words(dice)
    cases += runs_against_runs(dice)
    cases += runs_of_one_row(dice)
    return cases


def viewed(words, start, length):
    lent = words[: words_for(start + length)]
    return Operand(WORDS, length, start, sum(in_view(lent, start, length)), lent)


def holed(dice, length, start):
    """All ones, a few words of anything, then no rows."""
    size = words_for(start + length)
    ones = size // 2
    return viewed([FULL] * ones + dice.words(5) + [0] * (size - ones - 5), start, length)


def compositions_at_the_limit(dice):
    """A block on every route. Few stretches each: words that are all alike, or that rise, or a rank mask of two plain halves."""
    size = words_for(LIMIT)
    full, risen = Operand(ALL, LIMIT), viewed(rising(size + 1), 1, LIMIT)
    half = risen.claimed
    listed = Operand(LIST, LIMIT, rows=[63 + 64 * i for i in range(4096)])
    # 2, 4 and 16 rows in each 64: below a sixteenth, a sixteenth, above.
    two = viewed([0x0000400000000002] * (size + 1), 63, LIMIT)
    four = viewed([0x8000100000400001] * (size + 1), 7, LIMIT)
    sixteen = viewed([0x8421842184218421] * (size + 1), 5, LIMIT)
    spots = [0, 1, half // 3, half - 2, half - 1]
    few = [0] * words_for(half + 3)
    for rank in spots:
        few[(rank + 3) // 64] += 2 ** ((rank + 3) % 64)
    pairs = [
        (full, risen),
        (viewed([FULL] * (size + 1), 17, LIMIT), listed),
        (risen, Operand(ALL, half)),
        (listed, viewed([FULL] * 65, 1, 4096)),
        (Operand(NONE, LIMIT), unused()),
        (risen, Operand(LIST, half)),
        (listed, Operand(LIST, 4096, rows=range(0, 4096, 2))),
        (listed, viewed([0xAAAAAAAAAAAAAAAA] * 65, 1, 4096)),
        (risen, Operand(LIST, half, rows=spots)),
        (risen, viewed(few, 3, half)),
        (four, Operand(LIST, four.claimed, rows=range(30001, 30001 + 4096))),
        (two, Operand(LIST, two.claimed, rows=range(10001, 10001 + 4096))),
        (risen, holed(dice, half, 17)),
        (sixteen, viewed([0xB3C5B3C5B3C5B3C5] * 4097, 3, sixteen.claimed)),
        (four, holed(dice, four.claimed, 0)),
        (two, viewed([0xAAAAAAAAAAAAAAAA] * 513, 1, two.claimed)),
        (two, holed(dice, two.claimed, 63)),
    ]
    cases = [Case(COMPOSITION, first, second, [FULL] * (size + 2)) for first, second in pairs]
    cases.append(Case(COMPOSITION, full, full, [FULL] * size))
    cases.append(Case(COMPOSITION, full, full, [FULL] * (size - 1)))
    return cases


def runs_at_the_limit(dice):
    """On each of routes 1 to 8: a few runs in a block, one over all of it, and as many as crates/recorded has room for."""
    size = words_for(LIMIT)
    risen = viewed(rising(size + 1), 1, LIMIT)
    half = risen.claimed
    listed = Operand(LIST, LIMIT, rows=[63 + 64 * i for i in range(4096)])
    two = viewed([0x0000400000000002] * (size + 1), 63, LIMIT)
    sixteen = viewed([0x8421842184218421] * (size + 1), 5, LIMIT)
    few = Operand(RUNS, LIMIT, rows=[100, 300000, 300007, 700001, LIMIT - 5, LIMIT])
    many = Operand(RUNS, LIMIT, rows=range(LIMIT - 4095 * 32, LIMIT + 1, 32))
    count = count_of(few)
    pairs = [
        (Operand(RUNS, LIMIT, rows=[0, LIMIT]), risen),
        (Operand(ALL, LIMIT), Operand(RUNS, LIMIT, rows=range(48, 48 + 4100 * 32, 32))),
        (risen, Operand(RUNS, half, rows=[0, half])),
        (few, Operand(NONE, count)),
        (few, Operand(RUNS, count, rows=[0, 1, 5, 299899, 299901, 500000, count - 1, count])),
        (few, Operand(LIST, count, rows=[0, 299899, 299900, count - 6, count - 5, count - 1])),
        (few, viewed([0xB3C5B3C5B3C5B3C5] * (words_for(count) + 1), 3, count)),
        (many, Operand(RUNS, 65536, rows=range(7, 7 + 8 * 4096, 8))),
        (many, viewed([0xAAAAAAAAAAAAAAAA] * 1025, 1, 65536)),
        (listed, Operand(RUNS, 4096, rows=[10, 2000, 2001, 4096])),
        (risen, Operand(RUNS, half, rows=[7, 20, half // 3, half // 3 + 5, half - 1, half])),
        (sixteen, Operand(RUNS, sixteen.claimed, rows=range(5, 5 + 8 * 4096, 8))),
        (risen, Operand(RUNS, half, rows=[1, half // 3, half // 2, half - 1])),
        (two, Operand(RUNS, two.claimed, rows=[1, 100, 10001, two.claimed])),
    ]
    return [Case(COMPOSITION, first, second, [FULL] * (size + 2)) for first, second in pairs]


def bits(text):
    return [character == "1" for character in text]


def weeks():
    """examples/weeks: one run of ranks that is three runs of rows."""
    leaks = Operand(RUNS, WEEKS_LENGTH, rows=WEEKS_SELF)
    case = Case(COMPOSITION, leaks, Operand(RUNS, count_of(leaks), rows=WEEKS_RANK), [FULL] * 820)
    result = held_by(runs_in(WEEKS_RESULT), WEEKS_LENGTH)
    assert answer_to(case) == Answer(0, 0, sum(result), 4, density_of(result), as_words(result) + [FULL])
    return case


def examples(dice):
    """E11, the program's masks, both as words; both masks of length 0; and a node's weeks."""
    a, b = (Operand(WORDS, len(mask), 0, sum(mask), as_words(mask)) for mask in (bits("01101011"), bits("10010")))
    program = Case(COMPOSITION, a, b, [FULL])
    assert answer_to(program) == Answer(0, 0, 2, 9, 2 / 8, as_words(bits("01000010")))
    cases = [program, weeks()]
    for form in FORMS:
        for rank_form in FORMS:
            cases.append(Case(COMPOSITION, Operand(form, 0), Operand(rank_form, 0), []))
            assert answer_to(cases[-1]) == Answer(0, 0, 0, 3, 0.0, [])
    return cases


def random_compositions(dice, how_many):
    cases = []
    for _ in range(how_many):
        first, kind = random_operand(dice), random_operand(dice)
        second = rank_operand(dice, first, kind.form, dice.among([0, 1, 1, 8, 15, 16]), dice.below(64))
        if dice.below(15) == 0:
            second = kind
        room = dice.among([0, 0, 0, 1, 5, -1])
        cases.append(case_of(dice, COMPOSITION, spoilt(dice, first), spoilt(dice, second), room))
    return cases


def compositions(dice):
    cases = examples(dice)
    cases += compositions_at_small_lengths(dice)
    cases += compositions_at_every_start(dice)
    cases += full_and_empty_compositions(dice)
    cases += around_a_sixteenth(dice)
    cases += around_a_thirty_second(dice)
    cases += compositions_refused(dice)
    cases += two_bad_operands(dice, (COMPOSITION,))
    cases += wrong_rank_lengths(dice)
    cases += rooms_of_compositions(dice)
    cases += compositions_in_runs(dice)
    cases += compositions_at_the_limit(dice)
    cases += runs_at_the_limit(dice)
    cases += random_compositions(dice, 120)
    return cases


def routes_of(form, rank_form):
    """Those that two masks in these forms can take: 1, 2 and 3 where they can be full or empty, the others by the table."""
    if form == NONE:
        return {3}
    if form == ALL:
        return {1, 3}
    if rank_form in (ALL, NONE):
        return {1, 2, 3} if rank_form == ALL else {1, 3}
    if counts_as_list(form):
        return {1, 2, 3, 4 if counts_as_list(rank_form) else 5}
    return {1, 2, 3, 6, 7, 8} if counts_as_list(rank_form) else {1, 2, 3, 6, 9, 10}


def hold_mixes(accepted):
    """Every mix of forms takes every route that it can take; a block in runs takes each of 1 to 8."""
    taken = Counter((case.first.form, case.second.form, answer.route) for case, answer in accepted)
    able = {(form, rank_form, route) for form in FORMS for rank_form in FORMS for route in routes_of(form, rank_form)}
    assert taken.keys() == able, taken.keys() ^ able
    blocks = [(case, answer) for case, answer in accepted if case.first.length == LIMIT]
    in_runs = {answer.route for case, answer in blocks if RUNS in (case.first.form, case.second.form)}
    assert in_runs == set(range(1, 9)), in_runs


def hold_runs_in_sets(answered):
    """12 for runs in each set operation and for each operand, before 1 and 14, and where nothing else is wrong."""
    told_12 = Counter()
    for case, answer in answered:
        for number, operand in ((1, case.first), (2, case.second)):
            if case.operation != COMPOSITION and operand.form == RUNS and answer.operand == number:
                assert answer.refusal == 12
                told_12[case.operation, number, refusal_of(operand)] += 1
    for operation, number in [(operation, number) for operation in OF_TWO for number in (1, 2)] + [(NOT, 1)]:
        for instead_of in (0, 1, 14):
            assert told_12[operation, number, instead_of] >= 1, (operation, number, instead_of)


def hold(answered):
    """Every route is recorded, a block on each, and every refusal for each operand that it can name."""
    accepted = [(case, answer) for case, answer in answered if case.operation == COMPOSITION and answer.refusal == 0]
    hold_mixes(accepted)
    hold_runs_in_sets(answered)
    routes = Counter(answer.route for _, answer in accepted)
    blocks = Counter(answer.route for case, answer in accepted if case.first.length == LIMIT)
    refusals = Counter((answer.refusal, answer.operand) for _, answer in answered)
    for route in range(1, 11):
        assert routes[route] >= 5 and blocks[route] >= 1, route
    for operand in (1, 2):
        for number in (1, 2, 3, 4, 5, 6, 12, 14):
            assert refusals[number, operand] >= 5, (number, operand)
    for number in (0, 7, 8):
        assert refusals[number, 0] >= 5, number
    for case, _ in answered:
        assert has_room(case.first) and has_room(case.second) and len(case.before) <= MOST_OUT


def main():
    cases = set_operations(Dice(30)) + compositions(Dice(31))
    answered = [(case, answer_to(case)) for case in cases]
    hold(answered)
    write_cases(sys.argv[1], answered, lines_of)


if __name__ == "__main__":
    main()
