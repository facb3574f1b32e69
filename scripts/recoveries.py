#!/usr/bin/env python3
"""Writes recorded cases of recovery, from rows back to ranks, with the answers that documents 01 and 02 give.

    scripts/recoveries.py FILE

masks.py says how the file is told. A case is ten lines, those of pairs.py with operation 6, and a number more in its answer:

    6
    form length start claimed            self; form: 0 all, 1 none, 2 words, 3 list, 4 runs
    its lent words
    its lent rows, of runs their numbers in pairs
    form length start claimed            the second mask
    its lent words
    its lent rows
    the output slice before
    refusal operand count route m e row  the density is m / 2^e exactly; the row outside self that 17 tells, else 0
    the output slice after, all of it
"""

import sys
from collections import Counter, namedtuple

from masks import (
    ALL,
    FULL,
    LIMIT,
    LIST,
    MOST_OUT,
    NONE,
    RUNS,
    TOP,
    WEEKS_LENGTH,
    WEEKS_RANK,
    WEEKS_RESULT,
    WEEKS_SELF,
    WORDS,
    Dice,
    Operand,
    as_words,
    density_of,
    has_room,
    held_by,
    mask_of,
    numbers,
    random_operand,
    refusal_of,
    runs_in,
    spoilt,
    told,
    told_answer,
    words_for,
    words_operand,
    write_cases,
)
from pairs import (
    FORMS,
    LENGTHS,
    STARTS,
    WORD_ENDS,
    bad_operands,
    bits,
    composition,
    count_of,
    exactly,
    holed,
    lines_of_operand,
    mask_in,
    more_bad_runs,
    operand_in,
    output,
    rising,
    some_of,
    viewed,
)

RECOVERY = 6

Case = namedtuple("Case", "self other before")
Answer = namedtuple("Answer", "refusal operand count density row after")


# What documents 01 and 02 say.


def recovery(self_mask, other_mask):
    """A bit for each of self's set rows, in their order: whether the second mask has the row."""
    return [kept for is_set, kept in zip(self_mask, other_mask) if is_set]


def rows_outside(self_mask, other_mask):
    return [row for row, (is_set, kept) in enumerate(zip(self_mask, other_mask)) if kept and not is_set]


def refusal_of_masks(self_operand, other_operand):
    """Of the operands, and of their lengths: the number, and the operand that it names."""
    for number, operand in ((1, self_operand), (2, other_operand)):
        if refusal_of(operand) != 0:
            return refusal_of(operand), number
    if other_operand.length != self_operand.length:
        return 7, 0
    return 0, 0


def refused(refusal, operand, row, before):
    return Answer(refusal, operand, 0, 0.0, row, before)


def answer_to(case):
    refusal, operand = refusal_of_masks(case.self, case.other)
    if refusal != 0:
        return refused(refusal, operand, 0, case.before)
    masks = mask_of(case.self), mask_of(case.other)
    outside = rows_outside(*masks)
    if outside:
        return refused(17, 0, outside[0], case.before)
    ranks = recovery(*masks)
    words = as_words(ranks)
    if len(case.before) < len(words):
        return refused(8, 0, 0, case.before)
    return Answer(0, 0, sum(ranks), density_of(ranks), 0, words + case.before[len(words) :])


# The file.


def told_recovery(refusal, operand, count, density, row):
    return told_answer(refusal, operand, count, 0, density) + " " + numbers(row)


def lines_of(answered):
    case, answer = answered
    lines = [numbers(RECOVERY)] + lines_of_operand(case.self) + lines_of_operand(case.other)
    return lines + [told(case.before), told_recovery(*answer[:5]), told(answer.after)]


# The cases.


def start_of(dice):
    return dice.among(STARTS + (dice.below(64),))


def some_kept(dice, mask, sixteenths):
    """So many of sixteen of the mask's rows."""
    kept = dice.mask(len(mask), sixteenths)
    return [is_set and keep for is_set, keep in zip(mask, kept)]


def shaped(form, mask):
    """What a form can hold of the mask: all and none hold one mask of a length."""
    if form in (ALL, NONE):
        return [form == ALL] * len(mask)
    return mask


def case_of(dice, self_operand, other_operand, more=0):
    """With an output that is by so many words longer than what is needed."""
    size = max(words_for(count_of(self_operand)) + more, 0)
    return Case(self_operand, other_operand, output(dice, size))


def every_mix(dice):
    """Every two forms at every small length; all as the second mask where self is full, and else 17."""
    cases = []
    for length in LENGTHS:
        for form in FORMS:
            for other_form in FORMS:
                dense = 16 if other_form == ALL and dice.below(2) == 0 else dice.among([1, 8, 12])
                mask = shaped(form, mask_in(dice, form, length, dense))
                other = shaped(other_form, some_kept(dice, mask, 8))
                a, b = operand_in(dice, form, mask, start_of(dice)), operand_in(dice, other_form, other, start_of(dice))
                cases.append(case_of(dice, a, b, dice.among([0, 0, 1])))
    return cases


def every_start(dice):
    """Dense and thin words."""
    cases = []
    for s in STARTS:
        for t in STARTS:
            for mask in (dice.mask(dice.among([129, 150]), 8), exactly(dice, 1200, 70)):
                cases.append(case_of(dice, words_operand(dice, mask, s), words_operand(dice, some_kept(dice, mask, 8), t)))
    return cases


def full_and_empty(dice):
    """By count, in every form: self full or empty or neither, and none, some or all of its rows kept."""
    kinds = [(ALL, 16), (NONE, 0)] + [(form, sixteenths) for form in (WORDS, LIST, RUNS) for sixteenths in (0, 8, 16)]
    cases = []
    for form, x in kinds:
        for other_form, y in kinds:
            mask = shaped(form, mask_in(dice, form, dice.among([64, 100]), x))
            a = operand_in(dice, form, mask, start_of(dice))
            b = operand_in(dice, other_form, shaped(other_form, some_kept(dice, mask, y)), start_of(dice))
            cases.append(case_of(dice, a, b))
    return cases


def no_rows_at_all(dice):
    cases = []
    for form in FORMS:
        for other_form in FORMS:
            cases.append(Case(Operand(form, 0), Operand(other_form, 0), output(dice, dice.below(2))))
            assert answer_to(cases[-1]) == Answer(0, 0, 0, 0.0, 0, cases[-1].before)
    return cases


def rooms(dice):
    """The output exactly long enough, a word short, and longer; of self's count, not of its length."""
    cases = []
    for form in FORMS:
        for other_form in (WORDS, LIST, RUNS):
            for count in (1, 64, 65):
                length = count if form == ALL else count + dice.below(100)
                mask = shaped(form, exactly(dice, length, count))
                a = operand_in(dice, form, mask, start_of(dice))
                b = operand_in(dice, other_form, some_kept(dice, mask, 8), start_of(dice))
                cases += [case_of(dice, a, b, more) for more in (0, -1, 2)]
    return cases


def refused_operands(dice):
    """The other operand is right, in a few forms each, and as long where that is possible."""
    cases = []
    for number, bad in enumerate(3 * bad_operands(dice) + more_bad_runs()):
        form = FORMS[number % 5]
        right = operand_in(dice, form, mask_in(dice, form, min(bad.length, 70), 8), start_of(dice))
        cases += [Case(bad, right, output(dice, 2)), Case(right, bad, output(dice, 2))]
    return cases


def two_bad_operands(dice):
    """The first operand's refusal is the answer. Nowhere to write, so that 8 holds too."""
    bad = bad_operands(dice)
    return [Case(first, second, []) for i, first in enumerate(bad) for j, second in enumerate(bad) if (i + j) % 4 == 0]


def unequal_lengths(dice):
    """7, before 17 and 8: the second mask has rows that self has not, and there may be nowhere to write."""
    cases = []
    for a, b in ((0, 1), (1, 0), (64, 65), (65, 64), (129, 128), (10, 100), (100, 10)):
        for form in FORMS:
            other_form = dice.among(FORMS)
            first = operand_in(dice, form, mask_in(dice, form, a, 8), start_of(dice))
            second = operand_in(dice, other_form, dice.mask(b, 12), start_of(dice))
            cases.append(Case(first, second, dice.among([output(dice, 3), []])))
    cases.append(Case(Operand(NONE, LIMIT), Operand(ALL, LIMIT - 1), []))
    cases.append(Case(Operand(ALL, LIMIT), Operand(ALL, 1), []))
    assert all(answer_to(case).refusal == 7 for case in cases)
    return cases


def strays_in(dice, length, strays, first_form, second_form, room):
    """Self has about half of the rows, and not these; the second mask has these and some of self's."""
    mask = [is_set and row not in strays for row, is_set in enumerate(dice.mask(length, 8))]
    other = [kept or row in strays for row, kept in enumerate(some_kept(dice, mask, 8))]
    first = operand_in(dice, first_form, shaped(first_form, mask), start_of(dice))
    second = operand_in(dice, second_form, shaped(second_form, other), start_of(dice))
    return Case(first, second, output(dice, room))


def rows_outside_self(dice):
    """17 at row 0, at a word's edge, in its middle, at the last row, and the first of several; before 8, where there is no room."""
    cases = []
    length = 200
    places = [[0], [63], [64], [65], [127], [128], [100], [length - 1], [0, length - 1], [63, 64], [70, 75, 130], [5, 6, 7, 150]]
    mixes = [(first, second) for first in (NONE, WORDS, LIST, RUNS) for second in (WORDS, LIST, RUNS)]
    for number, strays in enumerate(places):
        for i, (first, second) in enumerate(mixes[number % 2 :: 2]):
            case = strays_in(dice, length, strays, first, second, (4, 0)[(number + i) % 2])
            if first != NONE:
                assert answer_to(case)[:2] == (17, 0) and answer_to(case).row == strays[0]
            cases.append(case)
    return cases


def all_outside_self(dice):
    """All of the length as the second mask, and self short of a row, in every form, at every place that matters."""
    cases = []
    for form in (WORDS, LIST, RUNS):
        for length in (1, 64, 65, 129, 150):
            for row in sorted({0, length // 2, min(63, length - 1), min(64, length - 1), length - 1}):
                mask = [at != row for at in range(length)]
                case = Case(operand_in(dice, form, mask, start_of(dice)), Operand(ALL, length), output(dice, dice.below(4)))
                assert answer_to(case)[:2] == (17, 0) and answer_to(case).row == row
                cases.append(case)
    for other in FORMS:
        b = operand_in(dice, other, exactly(dice, 100, 30), start_of(dice))
        cases.append(Case(Operand(NONE, 100), b, output(dice, 1)))
    return cases


def runs_across_words(dice):
    """Runs of one mask that begin and end where words do, the other in every form in turn."""
    cases = []
    for number, rows in enumerate(some_of(WORD_ENDS)):
        length = dice.among([rows[-1], 129, 130, 200])
        run = Operand(RUNS, max(length, rows[-1]), rows=rows)
        mask = mask_of(run)
        form = (WORDS, LIST, RUNS, NONE)[number % 4]
        kept = operand_in(dice, form, shaped(form, some_kept(dice, mask, dice.among([4, 8, 15]))), start_of(dice))
        cases.append(over_ones(dice, run, kept))
        around = [is_set or more for is_set, more in zip(mask, dice.mask(len(mask), 6))]
        cases.append(over_ones(dice, operand_in(dice, (WORDS, LIST, RUNS)[number % 3], around, start_of(dice)), run))
    return cases


def over_ones(dice, self_operand, other_operand):
    return Case(self_operand, other_operand, [FULL] * (words_for(count_of(self_operand)) + dice.below(2)))


def runs_against_runs(dice):
    """Self's runs are rows 5 to 69, 80 to 129 and 140; the kept ones end within them, at their ends, and just past them, which is 17."""
    cases = []
    self_operand = Operand(RUNS, 150, rows=[5, 70, 80, 130, 140, 141])
    for rows in some_of((5, 6, 69, 70, 71, 80, 129, 130)) + some_of((4, 5, 140, 141, 142)):
        cases.append(over_ones(dice, self_operand, Operand(RUNS, 150, rows=rows)))
    return cases


def near_the_end_of_32_bits():
    """Refused rows near 2^32, beside a right operand."""
    bad = [Operand(LIST, 10, rows=[TOP]), Operand(RUNS, 10, rows=[TOP - 1, TOP]), Operand(RUNS, 10, rows=[1, TOP])]
    return [case for operand in bad for case in (Case(operand, Operand(NONE, 10), []), Case(Operand(ALL, 10), operand, [FULL]))]


# Blocks of 1,048,576 rows: words that are all alike, or that rise, so that few stretches tell them and their recoveries.


def blocks(dice):
    size = words_for(LIMIT)
    full, empty = Operand(ALL, LIMIT), Operand(NONE, LIMIT)
    risen = viewed(rising(size + 1), 1, LIMIT)
    listed = Operand(LIST, LIMIT, rows=[63 + 64 * i for i in range(4096)])
    sixteen = viewed([0x8421842184218421] * (size + 1), 5, LIMIT)
    four = viewed([0x8000000000000421] * (size + 1), 5, LIMIT)
    many = Operand(RUNS, LIMIT, rows=range(LIMIT - 4095 * 32, LIMIT + 1, 32))
    inner = Operand(RUNS, LIMIT, rows=range(LIMIT - 4095 * 32 + 64, LIMIT + 1 - 64, 64))
    few = Operand(RUNS, LIMIT, rows=[100, 300000, 300007, 700001, LIMIT - 5, LIMIT])
    within = Operand(RUNS, LIMIT, rows=[100, 101, 105, 299999, 300007, 500000, LIMIT - 1, LIMIT])
    ones = viewed([FULL] * (size + 1), 17, LIMIT)
    pairs = [
        (full, risen),
        (full, full),
        (full, empty),
        (empty, empty),
        (ones, listed),
        (ones, few),
        (risen, risen),
        (risen, empty),
        (risen, Operand(LIST, LIMIT)),
        (risen, Operand(RUNS, LIMIT)),
        (sixteen, four),
        (sixteen, sixteen),
        (four, four),
        (four, empty),
        (listed, listed),
        (listed, Operand(LIST, LIMIT, rows=[63 + 128 * i for i in range(2048)])),
        (Operand(RUNS, LIMIT, rows=[0, LIMIT]), risen),
        (few, within),
        (few, few),
        (many, inner),
        (full, many),
        (few, Operand(LIST, LIMIT, rows=[100, 299999, 300007, 500000, LIMIT - 5, LIMIT - 1])),
        # 17: at row 0, at the last one, and the first of many
        (Operand(RUNS, LIMIT, rows=[1, LIMIT]), full),
        (Operand(RUNS, LIMIT, rows=[0, LIMIT - 1]), full),
        (viewed([FULL] * (size - 1) + [FULL >> 1], 0, LIMIT), ones),
        (four, sixteen),
        (empty, Operand(LIST, LIMIT, rows=[LIMIT - 1])),
        (few, Operand(RUNS, LIMIT, rows=[100, 300001])),
        (listed, risen),
    ]
    cases = [Case(first, second, [FULL] * (size + 2)) for first, second in pairs]
    cases.append(Case(full, full, [FULL] * size))
    cases.append(Case(full, full, [FULL] * (size - 1)))
    cases.append(Case(listed, listed, [FULL] * 64))
    cases.append(Case(listed, listed, [FULL] * 63))
    cases.append(Case(risen, holed(dice, LIMIT, 17), [FULL] * size))
    return cases


def examples():
    """Document 01's E11 back from its rows, and the weeks of examples/weeks back from theirs."""
    self_mask, rank_mask = bits("01101011"), bits("10010")
    kept = bits("01000010")
    assert composition(self_mask, rank_mask) == kept
    a, b = (Operand(WORDS, len(mask), 0, sum(mask), as_words(mask)) for mask in (self_mask, kept))
    program = Case(a, b, [FULL])
    assert answer_to(program) == Answer(0, 0, 2, 2 / 5, 0, as_words(rank_mask))
    leaks, result = (Operand(RUNS, WEEKS_LENGTH, rows=rows) for rows in (WEEKS_SELF, WEEKS_RESULT))
    ranks = held_by(runs_in(WEEKS_RANK), count_of(leaks))
    weeks = Case(leaks, result, [FULL] * (words_for(len(ranks)) + 1))
    assert answer_to(weeks) == Answer(0, 0, sum(ranks), density_of(ranks), 0, as_words(ranks) + [FULL])
    return [program, weeks]


def there_and_back(dice, how_many):
    """Compositions: their rank masks are recovered."""
    cases = []
    for _ in range(how_many):
        length = dice.among([dice.below(70), dice.below(300), dice.below(700)])
        self_mask = dice.among([dice.mask(length, dice.among([1, 8, 12, 16])), dice.turning(length, 60)])
        rank_mask = dice.among([dice.mask(sum(self_mask), dice.among([0, 8, 16])), dice.turning(sum(self_mask), 40)])
        rows = composition(self_mask, rank_mask)
        a, b = (operand_in(dice, dice.among([WORDS, WORDS, LIST, RUNS]), mask, start_of(dice)) for mask in (self_mask, rows))
        cases.append(case_of(dice, a, b, dice.among([0, 0, 1])))
        assert recovery(self_mask, rows) == rank_mask
    return cases


def random_recoveries(dice, how_many):
    """Now and then spoilt, with a row outside, of other lengths, or a word short."""
    cases = []
    for _ in range(how_many):
        first, kind = random_operand(dice), random_operand(dice)
        mask = mask_of(first)
        other = some_kept(dice, mask, dice.among([0, 1, 8, 15, 16]))
        if other and dice.below(5) == 0:
            other[dice.below(len(other))] = True
        second = operand_in(dice, kind.form, shaped(kind.form, other), dice.below(64))
        if dice.below(15) == 0:
            second = kind
        case = case_of(dice, first, second, dice.among([0, 0, 0, 1, 5, -1]))
        cases.append(case._replace(self=spoilt(dice, first), other=spoilt(dice, second)))
    return cases


def all_cases(dice):
    cases = examples()
    cases += every_mix(dice)
    cases += every_start(dice)
    cases += full_and_empty(dice)
    cases += no_rows_at_all(dice)
    cases += rooms(dice)
    cases += refused_operands(dice)
    cases += two_bad_operands(dice)
    cases += unequal_lengths(dice)
    cases += rows_outside_self(dice)
    cases += all_outside_self(dice)
    cases += runs_across_words(dice)
    cases += runs_against_runs(dice)
    cases += near_the_end_of_32_bits()
    cases += blocks(dice)
    cases += there_and_back(dice, 60)
    cases += random_recoveries(dice, 100)
    return cases


def hold(answered):
    """Every mix of forms is accepted, none with all at length 0 alone, blocks in each form, and every refusal is told for each
    operand that it can name."""
    accepted = [case for case, answer in answered if answer.refusal == 0]
    mixes = Counter((case.self.form, case.other.form) for case in accepted)
    assert len(mixes) == 25 and all(many >= 5 or mix == (NONE, ALL) for mix, many in mixes.items()), mixes
    blocks_of = {form for case in accepted if case.self.length == LIMIT for form in (case.self.form, case.other.form)}
    assert blocks_of == set(FORMS), blocks_of
    refusals = Counter((answer.refusal, answer.operand) for _, answer in answered)
    for operand in (1, 2):
        for number in (1, 2, 3, 4, 5, 6, 14):
            assert refusals[number, operand] >= 5, (number, operand)
    for number in (0, 7, 8, 17):
        assert refusals[number, 0] >= 20, number
    strays = Counter((case.self.form, case.other.form) for case, answer in answered if answer.refusal == 17)
    assert strays.keys() == {(a, b) for a in FORMS for b in FORMS if a != ALL and b != NONE}, strays
    for case, answer in answered:
        assert answer.refusal == 17 or answer.row == 0
        assert has_room(case.self) and has_room(case.other) and len(case.before) <= MOST_OUT


def main():
    cases = all_cases(Dice(60))
    answered = [(case, answer_to(case)) for case in cases]
    hold(answered)
    write_cases(sys.argv[1], answered, lines_of)


if __name__ == "__main__":
    main()
