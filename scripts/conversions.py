#!/usr/bin/env python3
"""Writes recorded cases of the conversions of a mask, to words, to a list and to runs, with the answers that documents 01 and 02 give.

    scripts/conversions.py FILE

masks.py says how the file is told. A case is six lines, and seven for the third operation:

    operation form length start claimed      operation: 1 to words, 2 to a list, 3 to runs
                                             form: 0 all, 1 none, 2 words, 3 list, 4 runs
    the lent words
    the lent rows, of runs their numbers in pairs
    the output slice before
    refusal operand count route m e          the density is m / 2^e exactly
    how many runs                            of the third operation alone
    the output slice after, all of it
"""

import sys
from collections import Counter, namedtuple
from itertools import combinations

from masks import (
    ALL,
    FULL,
    LIMIT,
    LIST,
    MOST_OUT,
    MOST_ROWS,
    NONE,
    RUNS,
    SMALL_LENGTHS,
    TOP,
    WEEKS_LENGTH,
    WEEKS_RESULT,
    WORDS,
    Dice,
    Operand,
    as_list,
    as_runs,
    as_words,
    density_of,
    flat_operand,
    has_room,
    held_by,
    in_view,
    list_operand,
    mask_of,
    numbers,
    random_operand,
    refusal_of,
    runs_in,
    runs_operand,
    spoilt,
    told,
    told_answer,
    words_for,
    words_operand,
    write_cases,
)

TO_WORDS, TO_LIST, TO_RUNS = 1, 2, 3
OPERATIONS = (TO_WORDS, TO_LIST, TO_RUNS)
STARTS = (0, 1, 63)
EDGES = (0, 63, 64, 65, 127, 128, 129)

Case = namedtuple("Case", "operation operand before")
# The runs are told of the third operation alone.
Answer = namedtuple("Answer", "refusal operand count density runs after")


# What documents 01 and 02 say.


def result_of(operation, mask):
    if operation == TO_WORDS:
        return as_words(mask)
    if operation == TO_LIST:
        return as_list(mask)
    return as_runs(mask)


def answer_to(case):
    refusal = refusal_of(case.operand)
    if refusal != 0:
        return Answer(refusal, 1, 0, 0.0, 0, case.before)
    mask = mask_of(case.operand)
    result = result_of(case.operation, mask)
    if len(case.before) < len(result):
        return Answer(8, 0, 0, 0.0, 0, case.before)
    return Answer(0, 0, sum(mask), density_of(mask), len(runs_in(result)), result + case.before[len(result) :])


# The file.


def lines_of(answered):
    case, answer = answered
    operand = case.operand
    lines = [numbers(case.operation, operand.form, operand.length, operand.start, operand.claimed)]
    lines += [told(operand.words), told(operand.rows), told(case.before)]
    lines.append(told_answer(answer.refusal, answer.operand, answer.count, 0, answer.density))
    if case.operation == TO_RUNS:
        lines.append(numbers(answer.runs))
    lines.append(told(answer.after))
    return lines


# The cases.


def room_for(operand, operation):
    """How many elements the answer has; where there is none, as many as small answers have."""
    if refusal_of(operand) != 0:
        return 10
    return len(result_of(operation, mask_of(operand)))


def ones(operation, size):
    return [FULL if operation == TO_WORDS else TOP] * size


def output(dice, operation, size):
    """Old content: all ones half of the time, so that bits past a length show whether they were cleared; rows that rise, which a
    few numbers tell."""
    if dice.below(2) == 0:
        return ones(operation, size)
    if operation == TO_WORDS:
        return dice.words(size)
    first, step = dice.below(2**31), 1 + dice.below(2**20)
    return [first + step * i for i in range(size)]


def converted(dice, operand, rooms=(0,), operations=OPERATIONS):
    """The operand to each form, with outputs by so many elements longer than what is needed."""
    cases = []
    for operation in operations:
        for more in rooms:
            size = room_for(operand, operation) + more
            if size >= 0:
                cases.append(Case(operation, operand, output(dice, operation, size)))
    return cases


def over_ones(operand, operations=OPERATIONS, more=0):
    """The operand to each form over all ones, which a few numbers tell."""
    return [Case(operation, operand, ones(operation, room_for(operand, operation) + more)) for operation in operations]


def refused(dice, operand):
    """The operand to each form, with an output that would do for small answers."""
    return [Case(operation, operand, output(dice, operation, 3)) for operation in OPERATIONS]


def every_form_at_small_lengths(dice):
    cases = []
    for length in SMALL_LENGTHS:
        for form in (ALL, NONE):
            cases += converted(dice, flat_operand(dice, form, length), (0, -1, 2))
        cases += converted(dice, list_operand(dice, dice.mask(length, 8)), (0, -1, 2), (TO_WORDS, TO_LIST))
        cases += converted(dice, words_operand(dice, dice.mask(length, 8), 0), operations=(TO_WORDS, TO_LIST))
        cases += converted(dice, words_operand(dice, dice.mask(length, 8), 1), (0, -1, 2), (TO_WORDS, TO_LIST))
        cases += converted(dice, words_operand(dice, dice.mask(length, 8), 63), operations=(TO_WORDS, TO_LIST))
    return cases


def runs_at_small_lengths(dice):
    """Short runs, and runs longer than a word."""
    cases = []
    for length in SMALL_LENGTHS:
        for longest, rooms in ((9, (0,)), (100, (0, -1))):
            mask = dice.turning(length, longest)
            cases += converted(dice, runs_operand(dice, mask), rooms)
            cases += over_ones(list_operand(dice, mask), [TO_RUNS])
            cases += over_ones(words_operand(dice, mask, dice.among(STARTS)), [TO_RUNS])
        cases += over_ones(words_operand(dice, dice.mask(length, 8), dice.among(STARTS)), [TO_RUNS])
    return cases


def full_and_empty(dice):
    cases = []
    for length in (64, 129):
        for sixteenths in (0, 16):
            mask = dice.mask(length, sixteenths)
            cases += converted(dice, words_operand(dice, mask, dice.below(64)))
            cases += converted(dice, list_operand(dice, mask))
            cases += converted(dice, runs_operand(dice, mask))
    return cases


def over_the_limit(dice):
    cases = []
    for length in (LIMIT + 1, 2**32 + 5, 2**64 - 1):
        for form in (ALL, NONE, LIST, RUNS):
            cases += refused(dice, Operand(form, length, words=dice.words(1), rows=[0, 4]))
    near = [(LIMIT + 1, 0), (LIMIT + 1, 1), (LIMIT + 1, 63)]
    far = [(2**32, 0), (2**64 - 1, 0), (2**64 - 63, 63), (2**64 - 1, 63)]
    for length, start in near + far:
        cases += refused(dice, Operand(WORDS, length, start, 0, [0], [7]))
    return cases


def starts_over_63(dice):
    cases = []
    for length in SMALL_LENGTHS + [LIMIT]:
        cases += refused(dice, Operand(WORDS, length, 64, length, [FULL] * 5))
    for start in (65, 2**32, 2**64 - 64, 2**64 - 1):
        cases += refused(dice, Operand(WORDS, 64, start, 64, [FULL] * 5))
    return cases


def words_too_few(dice):
    cases = []
    for start in (1, 63):
        cases += refused(dice, Operand(WORDS, 0, start, 0, []))
        cases += converted(dice, Operand(WORDS, 0, start, 0, [FULL]), (0, 1))
        cases += refused(dice, Operand(WORDS, 0, start, 1, [FULL]))
    for length, start in ((1, 0), (64, 0), (64, 1), (65, 0), (2, 63), (129, 0), (128, 63)):
        cases += refused(dice, Operand(WORDS, length, start, length, [FULL] * (words_for(start + length) - 1)))
    return cases


def wrong_counts(dice):
    cases = refused(dice, Operand(WORDS, 0, 0, 1, []))
    for length, start in ((1, 0), (100, 17)):
        right = words_operand(dice, [True] + dice.mask(length - 1, 8), start)
        wrong = [right.claimed - 1, right.claimed + 1, length + 1, 2**32 + right.claimed, 2**63, 2**64 - 1]
        for claimed in wrong:
            cases += refused(dice, Operand(WORDS, length, start, claimed, right.words))
    # The set bits of all lent words, where those in view are fewer.
    cases += refused(dice, Operand(WORDS, 10, 3, 64, [FULL]))
    return cases


def bad_lists(dice):
    lists = [
        (10, [3, 9, 9]),
        (10, [3, 3, 9]),
        (10, [3, 10]),
        (10, [9, 3]),
        (10, [1, 2, 3, 0]),
        (10, [5, 4, 12]),
        (10, [12, 11]),
        (10, [0, TOP]),
        (10, [TOP, TOP]),
        (10, [11, 12, 13]),
        (1, [1]),
        (2, [0, 1, 2]),
        (2, [0, 0, 0]),
        (3, [0, 1, 1, 2]),
        (0, [0]),
        (0, [0, 0]),
        (0, [7, 8]),
        (64, [64]),
        (65, [0, 65]),
    ]
    cases = []
    for length, rows in lists:
        cases += refused(dice, Operand(LIST, length, words=dice.words(1), rows=rows))
    return cases


def lists_of_no_entries(dice):
    """And no runs at all."""
    cases = []
    for length in (0, 10, 64):
        cases += converted(dice, Operand(LIST, length, words=[FULL, FULL]), (0, 1))
        cases += converted(dice, Operand(RUNS, length, words=[FULL, FULL]), (0, 1))
    return cases


def near_the_top():
    """Length and numbers, of which one or more are near 2^32, in each place."""
    faulty = []
    for place in range(4):
        for length, near in ((10, TOP - 1), (LIMIT, TOP)):
            rows = [2, 4, 6, 8]
            rows[place] = near
            faulty.append((length, rows))
    ends = [[TOP], [TOP, TOP], [0, TOP], [TOP, 0], [TOP - 1, TOP], [2, 4, TOP - 1, TOP], [2, 4, 6, 8, TOP]]
    return faulty + [(LIMIT, rows) for rows in ends]


def faulty_runs():
    """Length and numbers: each fault of 14 alone and beside others, at the first run and at a later one."""
    return [
        # a number without its pair
        (10, [3]),
        (10, [3, 5, 7]),
        (10, [0, 10, 11]),
        # an empty run
        (10, [0, 0]),
        (10, [3, 3]),
        (10, [10, 10]),
        (10, [5, 3]),
        (10, [3, 5, 7, 7]),
        (10, [3, 5, 8, 7]),
        (10, [3, 3, 5, 7]),
        # one that touches the run before it, overlaps it or lies before it
        (10, [3, 5, 5, 7]),
        (10, [0, 1, 1, 2]),
        (10, [3, 5, 4, 7]),
        (10, [3, 5, 3, 5]),
        (10, [5, 7, 1, 3]),
        (10, [0, 2, 4, 6, 6, 8]),
        (65, [0, 64, 64, 65]),
        (129, [0, 128, 128, 129]),
        # one past the length
        (10, [3, 11]),
        (10, [10, 11]),
        (10, [11, 12]),
        (10, [0, 5, 9, 11]),
        (1, [0, 2]),
        (63, [0, 64]),
        (64, [0, 65]),
        (64, [0, 63, 64, 65]),
        (0, [0]),
        (0, [0, 0]),
        (0, [0, 1]),
        # more than one
        (10, [5, 3, 11]),
        (10, [3, 5, 5, 11]),
        (10, [12, 11]),
    ]


def bad_runs(dice):
    """14 of the fault alone; and 1 of the same numbers where the length is over the limit too."""
    cases = []
    for number, (length, rows) in enumerate(faulty_runs() + near_the_top()):
        operand = Operand(RUNS, length, rows=rows)
        assert refusal_of(operand) == 14
        cases += [Case(operation, operand, ones(operation, 3)) for operation in OPERATIONS]
        over = Operand(RUNS, [LIMIT + 1, 2**32 + 5, 2**64 - 1][number % 3], rows=rows)
        assert refusal_of(over) == 1
        operation = OPERATIONS[number // 3 % 3]
        cases.append(Case(operation, over, ones(operation, 2)))
    return cases


def runs_at_words_edges(dice):
    """One run, and two, that begin and end around the ends of words; the mask ends with the last of them, or later."""
    cases = []
    for rows in list(combinations(EDGES, 2)) + list(combinations(EDGES, 4)):
        operand = Operand(RUNS, dice.among([rows[-1], 129, 130, 200]), rows=rows)
        mask = mask_of(operand)
        others = [words_operand(dice, mask, start) for start in STARTS] + [list_operand(dice, mask)]
        if len(rows) == 2:
            cases += over_ones(operand)
            cases += over_ones(others[3], [TO_RUNS])
        else:
            cases += over_ones(operand, [dice.among([TO_WORDS, TO_LIST])])
        cases += over_ones(dice.among(others[:3]), [TO_RUNS], dice.below(2))
    return cases


def runs_of_one_row(dice):
    """Every second row, or the row at a word's end; and gaps of one row."""
    cases = []
    for length in (63, 64, 65, 130):
        for step, first in ((2, 0), (2, 1), (64, 0), (64, 63)):
            mask = [row % step == first for row in range(length)]
            for rows in (mask, [not is_set for is_set in mask]):
                operand = dice.among([runs_operand, list_operand])(dice, rows)
                cases += over_ones(operand, [dice.among([TO_WORDS, TO_LIST]), TO_RUNS])
                cases += over_ones(words_operand(dice, rows, dice.among(STARTS)), [TO_RUNS])
    return cases


def rooms_of_runs(dice):
    """To runs, with numbers too few for the last run, for a part of it, just enough, and more: these stay."""
    cases = []
    rooms = (0, -1, -2, -3, -4, 1, 2, 3)
    for mask in (dice.turning(150, 40), dice.turning(20, 3), [False] * 64 + [True] + [False] * 5, [True] * 65):
        for operand in (words_operand(dice, mask, dice.below(64)), list_operand(dice, mask), runs_operand(dice, mask)):
            cases += converted(dice, operand, rooms, [TO_RUNS])
    for form in (ALL, NONE):
        cases += converted(dice, flat_operand(dice, form, 100), rooms, [TO_RUNS])
    return cases


def weeks(dice):
    """The result of examples/weeks, from words to its three runs."""
    mask = held_by(runs_in(WEEKS_RESULT), WEEKS_LENGTH)
    return [Case(TO_RUNS, Operand(WORDS, len(mask), 0, sum(mask), as_words(mask)), ones(TO_RUNS, 7))]


def more_than_one_refusal(dice):
    """The first in the order of the table is the answer."""
    nowhere = []
    operands = [
        Operand(WORDS, LIMIT + 1, 64, 9, []),
        Operand(WORDS, 64, 64, 9, []),
        Operand(WORDS, 64, 1, 9, [FULL]),
        Operand(WORDS, 64, 0, 9, [FULL]),
        Operand(LIST, LIMIT + 1, rows=[5, 5]),
        Operand(LIST, 5, rows=[7, 6]),
        Operand(LIST, 5, rows=[6, 7]),
        Operand(RUNS, LIMIT + 1, rows=[5, 5]),
        Operand(RUNS, LIMIT + 1, rows=[0, LIMIT + 1]),
        Operand(RUNS, 5, rows=[2, 3, 3]),
        Operand(RUNS, 5, rows=[7, 6]),
        Operand(ALL, LIMIT + 1),
        Operand(NONE, LIMIT + 1),
    ]
    return [Case(operation, operand, nowhere) for operand in operands for operation in OPERATIONS]


def at_the_limit_to_words(dice):
    """Few stretches each: words that rise by an even step differ only in their middle bits, also when they are shifted."""
    size = words_for(LIMIT)
    rising = [0x5A3C000000000F00 + 0x12345678 * i for i in range(size + 1)]
    operands = [Operand(ALL, LIMIT), Operand(NONE, LIMIT), Operand(LIST, LIMIT)]
    operands.append(Operand(LIST, LIMIT, rows=[63 + 64 * i for i in range(4095)] + [LIMIT - 1]))
    for start in (0, 1, 63):
        count = sum(in_view(rising, start, LIMIT))
        operands.append(Operand(WORDS, LIMIT, start, count, rising))
        operands.append(Operand(WORDS, LIMIT, start, count + 1, rising))
    # One row more is refused, though all else is there.
    operands += [Operand(ALL, LIMIT + 1), Operand(NONE, LIMIT + 1), Operand(LIST, LIMIT + 1, rows=[LIMIT])]
    operands.append(Operand(WORDS, LIMIT + 1, 0, sum(in_view(rising, 0, LIMIT + 1)), rising))
    operands.append(Operand(WORDS, LIMIT, 0, 0, [0] * (size - 1)))
    operands.append(Operand(WORDS, LIMIT, 1, 0, [0] * size))
    operands += [Operand(RUNS, LIMIT, rows=rows) for rows in runs_at_the_limit() + runs_past_the_limit()]
    operands.append(Operand(RUNS, LIMIT + 1, rows=[0, LIMIT + 1]))
    before = [FULL] * (size + 2)
    cases = [Case(TO_WORDS, operand, before) for operand in operands]
    cases.append(Case(TO_WORDS, Operand(ALL, LIMIT), before[: size - 1]))
    cases.append(Case(TO_WORDS, Operand(ALL, LIMIT), before[:size]))
    return cases


def runs_at_the_limit():
    """One over all; a few; and as many as there is room for, half a word long each, within the words and across their ends."""
    few = [0, 1, 63, 65, 1000, 65537, 500000, 500064, LIMIT - 1, LIMIT]
    within = list(range(LIMIT - 4095 * 32, LIMIT + 1, 32))
    across = list(range(48, 48 + 4100 * 32, 32))
    return [[0, LIMIT], [], few, within, across]


def runs_past_the_limit():
    return [[0, LIMIT + 1], [LIMIT - 1, LIMIT + 1], [LIMIT, LIMIT + 1], [0, LIMIT - 1, LIMIT - 1, LIMIT]]


def at_the_limit_to_list(dice):
    size = words_for(LIMIT)
    listed = [63 + 64 * i for i in range(4095)] + [LIMIT - 1]
    sparse = [0] * (size + 1)
    for row in [0, 1, 63, 64, 1000, 4096, 65535, 65536, 500000, LIMIT - 2, LIMIT - 1, LIMIT, LIMIT + 62]:
        sparse[row // 64] += 2 ** (row % 64)
    cases = []
    for start in (0, 1, 63):
        count = sum(in_view(sparse, start, LIMIT))
        for more in (0, -1, 3):
            cases.append(Case(TO_LIST, Operand(WORDS, LIMIT, start, count, sparse), [7] * (count + more)))
    cases.append(Case(TO_LIST, Operand(LIST, LIMIT, rows=listed), [5] * 4100))
    cases.append(Case(TO_LIST, Operand(LIST, LIMIT, rows=listed), [5] * 4095))
    cases.append(Case(TO_LIST, Operand(ALL, LIMIT), [5] * 4100))
    cases.append(Case(TO_LIST, Operand(NONE, LIMIT), []))
    cases.append(Case(TO_LIST, Operand(ALL, 4096), [5] * 4097))
    cases.append(Case(TO_LIST, Operand(WORDS, 4096, 7, 4096, [FULL] * 65), [5] * 4096))
    single = list(range(LIMIT - 4095, LIMIT + 1))
    for rows in ([0, 2, 63, 65, 1000, 3000, LIMIT - 1, LIMIT], [LIMIT - 4100, LIMIT], single, [0, LIMIT]):
        cases.append(Case(TO_LIST, Operand(RUNS, LIMIT, rows=rows), [5] * 4100))
    cases.append(Case(TO_LIST, Operand(RUNS, LIMIT, rows=single), [5] * 2047))
    return cases


def at_the_limit_to_runs(dice):
    """Numbers that rise evenly are told shortly: runs as long as the gaps between them."""
    size = words_for(LIMIT)
    spots = [0] * (size + 1)
    for row in [0, 1, 63, 64, 1000, 4096, 65535, 65536, 500000, LIMIT - 2, LIMIT - 1, LIMIT, LIMIT + 62]:
        spots[row // 64] += 2 ** (row % 64)
    views = [Operand(WORDS, LIMIT, start, sum(in_view(spots, start, LIMIT)), spots) for start in STARTS]
    cases = [Case(TO_RUNS, view, ones(TO_RUNS, 16)) for view in views]
    # The first view has seven runs, two of them across a word's end.
    cases += [Case(TO_RUNS, views[0], ones(TO_RUNS, room)) for room in (14, 13)]
    operands = [Operand(WORDS, LIMIT, 17, LIMIT, [FULL] * (size + 1)), Operand(NONE, LIMIT)]
    operands.append(Operand(WORDS, LIMIT, 0, 2048, [0] * (size - 64) + [0xAAAAAAAAAAAAAAAA] * 64))
    operands.append(Operand(LIST, LIMIT, rows=range(LIMIT - 4095, LIMIT, 2)))
    operands.append(Operand(LIST, LIMIT, rows=range(5000, 9096)))
    # 4,096 rows, each a run: too many for the output.
    operands.append(Operand(LIST, LIMIT, rows=[63 + 64 * i for i in range(4095)] + [LIMIT - 1]))
    apart = list(range(256, LIMIT + 1, 256))
    operands += [Operand(RUNS, LIMIT, rows=rows) for rows in runs_at_the_limit() + runs_past_the_limit() + [apart]]
    operands.append(Operand(RUNS, LIMIT + 1, rows=[0, LIMIT + 1]))
    cases += [Case(TO_RUNS, operand, ones(TO_RUNS, 4100)) for operand in operands]
    cases.append(Case(TO_RUNS, Operand(RUNS, LIMIT, rows=apart), ones(TO_RUNS, 4095)))
    cases += [Case(TO_RUNS, Operand(ALL, LIMIT), ones(TO_RUNS, room)) for room in (2, 1)]
    return cases


def random_cases(dice, how_many):
    cases = []
    for _ in range(how_many):
        operand = spoilt(dice, random_operand(dice))
        operation = dice.among(OPERATIONS)
        size = min(room_for(operand, operation), 600) + dice.among([0, 0, 0, 1, 5, -1])
        cases.append(Case(operation, operand, output(dice, operation, max(size, 0))))
    return cases


def all_cases():
    dice = Dice(20)
    cases = every_form_at_small_lengths(dice)
    cases += runs_at_small_lengths(dice)
    cases += full_and_empty(dice)
    cases += over_the_limit(dice)
    cases += starts_over_63(dice)
    cases += words_too_few(dice)
    cases += wrong_counts(dice)
    cases += bad_lists(dice)
    cases += lists_of_no_entries(dice)
    cases += bad_runs(dice)
    cases += runs_at_words_edges(dice)
    cases += runs_of_one_row(dice)
    cases += rooms_of_runs(dice)
    cases += weeks(dice)
    cases += more_than_one_refusal(dice)
    cases += at_the_limit_to_words(dice)
    cases += at_the_limit_to_list(dice)
    cases += at_the_limit_to_runs(dice)
    cases += random_cases(dice, 68)
    return cases


def hold(answered):
    """Every form goes to every form, every refusal is told of every conversion, and what is lent has room in crates/recorded."""
    accepted = Counter((case.operand.form, case.operation) for case, answer in answered if answer.refusal == 0)
    refusals = Counter((answer.refusal, case.operation) for case, answer in answered)
    of_runs = Counter((answer.refusal, case.operation) for case, answer in answered if case.operand.form == RUNS)
    for operation in OPERATIONS:
        for number in (0, 1, 8, 14):
            assert of_runs[number, operation] >= 5, (number, operation)
        for form in (ALL, NONE, WORDS, LIST, RUNS):
            assert accepted[form, operation] >= 5, (form, operation)
        for number in (1, 2, 3, 4, 5, 6, 8, 14):
            assert refusals[number, operation] >= 5, (number, operation)
    assert {number for number, _ in of_runs} == {0, 1, 8, 14}, of_runs
    for case, answer in answered:
        assert has_room(case.operand) and len(case.before) <= (MOST_OUT if case.operation == TO_WORDS else MOST_ROWS)
        if case.operation == TO_RUNS and answer.refusal == 0 and case.operand.length < 1000:
            # What is written is an operand again, with the same rows.
            written = Operand(RUNS, case.operand.length, rows=answer.after[: 2 * answer.runs])
            assert refusal_of(written) == 0 and mask_of(written) == mask_of(case.operand)


def main():
    answered = [(case, answer_to(case)) for case in all_cases()]
    hold(answered)
    write_cases(sys.argv[1], answered, lines_of)


main()
