#!/usr/bin/env python3
"""Writes recorded streams of recovery in pieces, with the answers that documents 01 and 02 give.

    scripts/recovery_feeds.py FILE

masks.py says how the file is told. A case is two lines and ten for each feed, as in feeds.py, with a number more in its answer:

    how many feeds
    the output slice before
    given done ranks kept                given 0: the state that the feed before gave back, fresh at first; 1: these three
    form length start claimed            self's piece; form: 0 all, 1 none, 2 words, 3 list, 4 runs
    its lent words
    its lent rows, of runs their numbers in pairs
    form length start claimed            the second mask's piece
    its lent words
    its lent rows
    refusal operand count route m e row  the density is m / 2^e exactly; the row outside self that 17 tells, counted in the piece, else 0
    done ranks kept                      the state handed back
    the output slice after, all of it

Each feed's bits are recovered from its own pieces. Where a stream was cut from whole masks, what it leaves is held to the recovery of
these.
"""

import sys
from collections import Counter, namedtuple

from feeds import BAD_STATE, FRESH, NEAR, State, bad_states, over, piece_of, random_cuts, shuffled
from masks import (
    ALL,
    FULL,
    LIMIT,
    LIST,
    MOST_OUT,
    NONE,
    RUNS,
    WORDS,
    Dice,
    Operand,
    density_of,
    has_room,
    held_by,
    in_view,
    mask_of,
    numbers,
    refusal_of,
    runs_in,
    told,
    words_for,
    write_cases,
)
from pairs import FORMS, bad_operands, bits, exactly, lines_of_operand, more_bad_runs, output, rising, viewed
from recoveries import recovery, refusal_of_masks, rows_outside, shaped, some_kept, told_recovery

# A feed whose given state is None is handed what the feed before gave back.
Feed = namedtuple("Feed", "given self other")
Case = namedtuple("Case", "before feeds")
Answer = namedtuple("Answer", "refusal operand count density row")
Answered = namedtuple("Answered", "feed answer state after")

NO_ROWS = Operand(NONE, 0)


# What documents 01 and 02 say.


def is_state(state):
    return state.kept <= state.ranks <= state.done <= LIMIT


def refusal_to(state, feed, room):
    """The number, the operand that it names, and the row that 17 tells."""
    if not is_state(state):
        return 10, 0, 0
    refusal, operand = refusal_of_masks(feed.self, feed.other)
    if refusal != 0:
        return refusal, operand, 0
    if state.done + feed.self.length > LIMIT:
        return 11, 0, 0
    self_mask = mask_of(feed.self)
    outside = rows_outside(self_mask, mask_of(feed.other))
    if outside:
        return 17, 0, outside[0]
    if room < words_for(state.ranks + sum(self_mask)):
        return 8, 0, 0
    return 0, 0, 0


def answer_to(state, feed, before):
    refusal, operand, row = refusal_to(state, feed, len(before))
    if refusal != 0:
        return Answered(feed, Answer(refusal, operand, 0, 0.0, row), state, before)
    self_mask = mask_of(feed.self)
    ranks = recovery(self_mask, mask_of(feed.other))
    moved = State(state.done + len(self_mask), state.ranks + len(ranks), state.kept + sum(ranks))
    return Answered(feed, Answer(0, 0, sum(ranks), density_of(ranks), 0), moved, over(before, state.ranks, ranks))


def answers_to(case):
    answered = []
    state, after = FRESH, case.before
    for feed in case.feeds:
        answered.append(answer_to(state if feed.given is None else feed.given, feed, after))
        state, after = answered[-1].state, answered[-1].after
    return answered


# The file.


def lines_of_feed(answered):
    feed = answered.feed
    given = (0, 0, 0, 0) if feed.given is None else (1,) + feed.given
    lines = [numbers(*given)] + lines_of_operand(feed.self) + lines_of_operand(feed.other)
    return lines + [told_recovery(*answered.answer), numbers(*answered.state), told(answered.after)]


def lines_of(case_and_answers):
    case, answered = case_and_answers
    lines = [numbers(len(answered)), told(case.before)]
    for one in answered:
        lines += lines_of_feed(one)
    return lines


# Pieces, and streams of them.


def pieces_at(dice, self_mask, other_mask, cuts, forms=()):
    """The feeds of two whole masks cut at these rows; the forms of the pieces in turn, or any."""
    feeds = []
    start = 0
    for number, end in enumerate(list(cuts) + [len(self_mask)]):
        form, other_form = forms[number % len(forms)] if forms else (None, None)
        pieces = piece_of(dice, self_mask[start:end], form), piece_of(dice, other_mask[start:end], other_form)
        feeds.append(Feed(None, *pieces))
        start = end
    return feeds


def from_state(given, feeds):
    return [feeds[0]._replace(given=given)] + feeds[1:]


def random_masks(dice, length):
    """A self mask and a second one within it."""
    self_mask = dice.among([dice.mask(length, dice.among([0, 1, 8, 8, 12, 16])), dice.turning(length, 50)])
    kept = dice.among([dice.mask(length, dice.among([0, 8, 8, 12, 16])), dice.turning(length, 50)])
    return self_mask, [is_set and keep for is_set, keep in zip(self_mask, kept)]


def right_feed(dice, length):
    return Feed(None, *(piece_of(dice, mask) for mask in random_masks(dice, length)))


def ends_as_whole(case, self_mask, other_mask, origin=FRESH):
    """The cut rule: the accepted feeds leave the bits of the whole recovery from the origin's ranks on, no other bit changed, and the
    state that it moves to."""
    last = answers_to(case)[-1]
    ranks = recovery(self_mask, other_mask)
    end = State(origin.done + len(self_mask), origin.ranks + len(ranks), origin.kept + sum(ranks))
    assert last.state == end, (last.state, end)
    before, after = (in_view(words, 0, 64 * len(words)) for words in (case.before, last.after))
    assert after == before[: origin.ranks] + ranks + before[end.ranks :]
    return case


def whole_in_pieces(dice, self_mask, other_mask, cuts, forms=(), more=0):
    """Over ones, so that every bit that is not to be touched shows; the room is what self's count needs, and so many words more."""
    before = [FULL] * (words_for(sum(self_mask)) + more)
    return ends_as_whole(Case(before, pieces_at(dice, self_mask, other_mask, cuts, forms)), self_mask, other_mask)


# The cases.


def examples(dice):
    """Document 01's E12 back from its rows: 0110 with 0100, and 1011 with 0010; and a stream that is fed nothing at all."""
    self_mask, kept = bits("01101011"), bits("01000010")
    cases = [whole_in_pieces(dice, self_mask, kept, cuts, [(WORDS, WORDS)]) for cuts in ([4], [])]
    for case in cases:
        last = answers_to(case)[-1]
        assert last.state == State(8, 5, 2) and last.after == [FULL - 31 + 0b01001]
    cases.append(Case([FULL], []))
    return cases


def masks_for(dice, forms, lengths):
    """Masks whose pieces can have these forms: all ones for all, none for none, anything for words, lists and runs."""
    self_mask, other_mask = [], []
    for (form, other_form), length in zip(forms, lengths):
        mask = shaped(form, dice.mask(length, dice.among([4, 8, 12])))
        if other_form == ALL:
            mask = [True] * length
        self_mask += mask
        other_mask += shaped(other_form, some_kept(dice, mask, 8))
    return self_mask, other_mask


def every_cut_of_short_masks(dice):
    """In two pieces. Every mix of forms comes up again and again, but none with all, which has rows outside."""
    mixes = [(form, other) for form in FORMS for other in FORMS if (form, other) != (NONE, ALL)]
    cases = []
    for length in range(13):
        for cut in range(length + 1):
            at = len(cases)
            forms = [mixes[at % 24], mixes[(at // 24 + 7 * at) % 24]]
            masks = masks_for(dice, forms, (cut, length - cut))
            cases.append(whole_in_pieces(dice, *masks, [cut], forms, at % 2))
    return cases


def three_pieces_of_short_masks(dice):
    cases = []
    for length in (2, 3, 5):
        for first in range(length + 1):
            for second in range(first, length + 1):
                cases.append(whole_in_pieces(dice, *random_masks(dice, length), [first, second], (), (first + second) % 2))
    return cases


def random_cuts_of_long_masks(dice):
    cases = []
    for length in [63, 64, 65, 127, 128, 129, 191, 192, 193, 256, 511, 512, 513, 1000, 2047, 4096, 4097, 5000]:
        for _ in range(2 if length < 1000 else 1):
            cuts = random_cuts(dice, length, 2 + dice.below(4))
            cases.append(whole_in_pieces(dice, *random_masks(dice, length), cuts, (), dice.below(2)))
    return cases


def cuts_around_words(dice):
    """Pieces that end a row before a word's end, at it, and a row after it: words of rows, and words of ranks."""
    cases = []
    for first in (63, 64, 65):
        for second in (127, 128, 129):
            self_mask = dice.mask(200, 8)
            cases.append(whole_in_pieces(dice, self_mask, some_kept(dice, self_mask, 8), [first, first, second], (), 1))
            rows = [row for row in range(300) if row % 3 > 0]
            self_mask = held_by([(row, row + 1) for row in rows], 300)
            cases.append(whole_in_pieces(dice, self_mask, some_kept(dice, self_mask, 12), [rows[first], rows[second]]))
    return cases


def cuts_through_runs(dice):
    """Three runs, cut in two inside a run, at its ends and between; the kept rows are runs too, and cut so."""
    self_mask = held_by(runs_in([5, 70, 80, 200, 210, 211]), 220)
    cases = []
    for cut in (4, 5, 6, 63, 64, 65, 69, 70, 71, 79, 80, 81, 127, 128, 129, 199, 200, 205, 210, 211):
        for kept in ([5, 70, 80, 200, 210, 211], [8, 68, 82, 190]):
            form = (WORDS, LIST, RUNS)[len(cases) % 3]
            forms = [(RUNS, RUNS), (RUNS, form), (form, RUNS)][len(cases) // 3 % 3 :]
            cases.append(whole_in_pieces(dice, self_mask, held_by(runs_in(kept), 220), [cut], forms, cut % 2))
    return cases


def pieces_with_no_set_row(dice):
    """Between others, and by themselves: rows are fed, and no rank."""
    cases = []
    for form in (NONE, WORDS, LIST, RUNS):
        for other_form in (NONE, WORDS, LIST, RUNS):
            gap = [False] * dice.among([1, 50, 64, 130])
            first, last = dice.mask(70, 8), dice.mask(60, 12)
            self_mask = first + gap + last
            cuts = [70, 70 + len(gap)]
            forms = [(None, None), (form, other_form), (None, None)]
            cases.append(whole_in_pieces(dice, self_mask, some_kept(dice, self_mask, 8), cuts, forms, len(cases) % 2))
            cases.append(Case([FULL] * (len(cases) % 2), pieces_at(dice, gap, gap, [len(gap) // 2], [(form, other_form)])))
            assert answers_to(cases[-1])[-1].state == State(len(gap), 0, 0)
    return cases


# Streams of 1,048,576 rows: words that are all alike, or that rise, so that few stretches tell them and what is recovered.


def long_pairs(length):
    """Operands in every form, the second within the first."""
    alike = [viewed([word] * (words_for(length) + 1), 5, length) for word in (0x8421842184218421, 0x8000000000000421)]
    entries = Operand(LIST, length, rows=list(range(63, length, 64))[:4096])
    parts = Operand(RUNS, length, rows=[7, length // 3, length // 3 + 65, length - 1])
    within = Operand(RUNS, length, rows=[7, 8, 10, length // 4, length // 3 + 65, length // 2])
    rise = viewed(rising(words_for(length) + 2), 1, length)
    return [
        (Operand(ALL, length), rise),
        (Operand(ALL, length), Operand(ALL, length)),
        (Operand(NONE, length), Operand(NONE, length)),
        (Operand(ALL, length), Operand(RUNS, length, rows=[0, length])),
        (alike[0], alike[1]),
        (rise, rise),
        (rise, Operand(NONE, length)),
        (rise, Operand(LIST, length)),
        (entries, entries),
        (Operand(RUNS, length, rows=[0, length]), entries),
        (parts, within),
        (parts, Operand(LIST, length, rows=[7, 10, length // 4, length - 2])),
        (Operand(RUNS, length), Operand(RUNS, length)),
    ]


def streams_of_the_limit(dice):
    cases = []
    order = shuffled(dice, range(13))
    for chosen in (order[:5], order[5:9], order[9:]):
        least = 20000
        spare = LIMIT - least * len(chosen)
        cuts = [0] + sorted(dice.below(spare + 1) for _ in chosen[1:]) + [spare]
        lengths = [least + b - a for a, b in zip(cuts, cuts[1:])]
        feeds = [Feed(None, *long_pairs(length)[number]) for number, length in zip(chosen, lengths)]
        self_mask = [row for feed in feeds for row in mask_of(feed.self)]
        other_mask = [row for feed in feeds for row in mask_of(feed.other)]
        # A row more is refused; a piece of no rows after it is not.
        feeds += [Feed(None, Operand(NONE, 1), Operand(NONE, 1)), Feed(None, NO_ROWS, NO_ROWS)]
        room = words_for(sum(self_mask)) + len(cases) % 2
        cases.append(ends_as_whole(Case([FULL] * room, feeds), self_mask, other_mask))
        assert [one.answer.refusal for one in answers_to(cases[-1])] == [0] * len(chosen) + [11, 0]
    return cases


# Refused feeds, and states that are given.


def outside_feed(dice, length, row, more=()):
    """Self has not this row, and not those that come after it; the second mask has them."""
    strays = (row,) + tuple(more)
    self_mask = [is_set and at not in strays for at, is_set in enumerate(dice.mask(length, 8))]
    other = [kept or at in strays for at, kept in enumerate(some_kept(dice, self_mask, 8))]
    return Feed(None, piece_of(dice, self_mask), piece_of(dice, other))


def interrupted(dice, bad_feeds):
    """A stream that goes on after each refused feed as if that had not been. A refused feed hands back the state that it was given: the
    state that stood is told after one that was given another."""
    self_mask = dice.mask(100 + dice.below(60), 8)
    other_mask = some_kept(dice, self_mask, 8)
    right = pieces_at(dice, self_mask, other_mask, random_cuts(dice, len(self_mask), len(bad_feeds)))
    room = words_for(sum(self_mask)) + dice.below(2)
    before = output(dice, room)
    feeds, state, elsewhere = [], FRESH, False
    for number, feed in enumerate(right):
        feeds.append(feed._replace(given=state) if elsewhere else feed)
        state = answer_to(state, feed, before).state
        elsewhere = False
        if number < len(bad_feeds):
            bad, expected = bad_feeds[number]
            assert refusal_to(bad.given or state, bad, room)[0] == expected, (bad, expected)
            feeds.append(bad)
            elsewhere = bad.given is not None
    return ends_as_whole(Case(before, feeds), self_mask, other_mask)


def refused_states(dice):
    bad = [(right_feed(dice, 10)._replace(given=given), 10) for given in bad_states()]
    return [interrupted(dice, bad[at : at + 5]) for at in range(0, len(bad), 5)]


def refused_operands(dice):
    cases = []
    for operand in 2 * bad_operands(dice) + more_bad_runs():
        right = right_feed(dice, 40)
        bad = [(Feed(None, operand, right.other), refusal_of(operand)), (Feed(None, right.self, operand), refusal_of(operand))]
        cases.append(interrupted(dice, bad))
    return cases


def refused_lengths(dice):
    """7: by one too short or too long, as long as self's count, or of no rows."""
    cases = []
    for _ in range(4):
        self_piece = piece_of(dice, exactly(dice, 40, 20))
        wrong = [Feed(None, self_piece, piece_of(dice, dice.mask(length, 8))) for length in (39, 41, 20, 0)]
        cases.append(interrupted(dice, [(feed, 7) for feed in wrong]))
    return cases


def rows_outside_self(dice):
    """17 in the middle of a stream: the row is the piece's own."""
    cases = []
    for rows in ([0], [63], [64], [65], [129], [127, 128], [3, 4, 100], [0, 129]):
        for _ in range(2):
            bad = [outside_feed(dice, 130, rows[0], rows[1:]), outside_feed(dice, rows[-1] + 1, rows[0], rows[1:])]
            cases.append(interrupted(dice, [(feed, 17) for feed in bad]))
            told_rows = [one.answer.row for one in answers_to(cases[-1]) if one.answer.refusal == 17]
            assert told_rows == [rows[0]] * 2
    for other in (Operand(ALL, 30), Operand(LIST, 30, rows=[29]), Operand(RUNS, 30, rows=[5, 7]), viewed([FULL] * 2, 40, 30)):
        cases.append(interrupted(dice, [(Feed(None, Operand(NONE, 30), other), 17)]))
    return cases


def over_the_limit(dice):
    """11: from any state, by one row and by many; and right up to it."""
    cases = []
    for done, length in ((LIMIT, 1), (LIMIT - 9, 10), (LIMIT - 9, 200), (1, LIMIT), (LIMIT, LIMIT)):
        given = State(done, min(done, 100), min(done, 40))
        feed = Feed(given, Operand(ALL, length), Operand(NONE, length))
        assert refusal_to(given, feed, words_for(LIMIT)) == (11, 0, 0)
        fitting = min(LIMIT - done, 9)
        self_mask = exactly(dice, fitting, fitting // 2)
        right = pieces_at(dice, self_mask, some_kept(dice, self_mask, 8), [fitting // 2])
        cases.append(Case([FULL] * 3, [feed] + from_state(given, right)))
        assert [one.answer.refusal for one in answers_to(cases[-1])] == [11, 0, 0]
    return cases


def too_little_room(dice):
    """8: a piece whose last rank lies in the word past the output; one whose ranks end with the output is accepted before it, and so is one
    with no set row after it."""
    cases = []
    for room in (0, 1, 2, 3):
        for form in (WORDS, LIST, RUNS):
            self_mask = [row % 2 == 0 for row in range(128 * room)] + [False, True]
            cuts = [dice.below(128 * room + 1), 128 * room]
            feeds = pieces_at(dice, self_mask, some_kept(dice, self_mask, 8), cuts, [(form, None)])
            feeds.append(Feed(None, Operand(NONE, 70), piece_of(dice, [False] * 70)))
            cases.append(Case(output(dice, room), feeds))
            assert [one.answer.refusal for one in answers_to(cases[-1])] == [0, 0, 8, 0]
    return cases


def shorter_after_too_long(dice):
    """8 for a piece that has too many set rows for the output, and then the piece that fills it."""
    cases = []
    for room in (1, 2, 3):
        for left in (0, 1, 30, 64):
            self_mask = exactly(dice, 100 * room, 64 * room - left) + exactly(dice, 90, left)
            right = pieces_at(dice, self_mask, some_kept(dice, self_mask, 8), [100 * room])
            too_many = exactly(dice, left + 50, left + 1)
            feed = Feed(None, piece_of(dice, too_many), piece_of(dice, some_kept(dice, too_many, 8)))
            cases.append(Case(output(dice, room), [right[0], feed, right[1]]))
            assert [one.answer.refusal for one in answers_to(cases[-1])] == [0, 8, 0]
    return cases


def orders(dice):
    """Where more than one refusal holds the first is told: 10, operand 1, operand 2, 7, 11, 17, 8."""
    ones, none = Operand(ALL, 10), Operand(NONE, 10)
    no_order, past = Operand(LIST, 10, rows=[3, 3]), Operand(LIST, 10, rows=[3, 10])
    touching, unpaired = Operand(RUNS, 10, rows=[3, 5, 5, 7]), Operand(RUNS, 10, rows=[3])
    wrong = Operand(WORDS, 10, 3, 2**64 - 1, [FULL])
    run = Operand(RUNS, 10, rows=[0, 10])
    late = State(200, 120, 0)
    feeds = [
        (Feed(BAD_STATE, ones, none), (10, 0, 0)),
        (Feed(BAD_STATE, no_order, past), (10, 0, 0)),
        (Feed(BAD_STATE, touching, unpaired), (10, 0, 0)),
        (Feed(BAD_STATE, ones, past), (10, 0, 0)),
        (Feed(BAD_STATE, ones, Operand(ALL, 9)), (10, 0, 0)),
        (Feed(BAD_STATE, none, ones), (10, 0, 0)),
        (Feed(State(LIMIT + 1, 7, 8), ones, none), (10, 0, 0)),
        (Feed(None, no_order, past), (5, 1, 0)),
        (Feed(None, past, no_order), (6, 1, 0)),
        (Feed(None, wrong, no_order), (4, 1, 0)),
        (Feed(None, touching, no_order), (14, 1, 0)),
        (Feed(None, past, touching), (6, 1, 0)),
        (Feed(None, Operand(RUNS, LIMIT + 1, rows=[5, 5]), touching), (1, 1, 0)),
        (Feed(NEAR, unpaired, touching), (14, 1, 0)),
        (Feed(NEAR, Operand(ALL, LIMIT + 1), none), (1, 1, 0)),
        (Feed(NEAR, none, wrong), (4, 2, 0)),
        (Feed(None, ones, Operand(ALL, LIMIT + 1)), (1, 2, 0)),
        (Feed(None, ones, Operand(WORDS, 9, 64, 9, [])), (2, 2, 0)),
        (Feed(NEAR, ones, Operand(WORDS, 10, 0, 9, [])), (3, 2, 0)),
        (Feed(None, none, Operand(RUNS, 9, rows=[3, 10])), (14, 2, 0)),
        (Feed(NEAR, none, no_order), (5, 2, 0)),
        (Feed(NEAR, none, Operand(ALL, 9)), (7, 0, 0)),
        (Feed(NEAR, run, Operand(RUNS, 11, rows=[0, 11])), (7, 0, 0)),
        (Feed(State(LIMIT, 0, 0), none, Operand(ALL, 11)), (7, 0, 0)),
        (Feed(None, Operand(NONE, 300), Operand(ALL, 299)), (7, 0, 0)),
        (Feed(late, none, Operand(ALL, 11)), (7, 0, 0)),
        (Feed(NEAR, none, ones), (11, 0, 0)),
        (Feed(NEAR, Operand(RUNS, 10, rows=[1, 10]), run), (11, 0, 0)),
        (Feed(State(LIMIT, 200, 0), ones, none), (11, 0, 0)),
        (Feed(late, none, ones), (17, 0, 0)),
        (Feed(late, Operand(RUNS, 10, rows=[0, 9]), ones), (17, 0, 9)),
        (Feed(late, Operand(LIST, 10, rows=[0, 1, 2, 3]), Operand(LIST, 10, rows=[0, 1, 4, 9])), (17, 0, 4)),
        (Feed(State(LIMIT - 10, 120, 7), viewed([0x3EF], 0, 10), run), (17, 0, 4)),
        (Feed(late, ones, none), (8, 0, 0)),
        (Feed(late, run, run), (8, 0, 0)),
        (Feed(State(LIMIT - 10, 120, 7), ones, ones), (8, 0, 0)),
        (Feed(State(300, 129, 0), NO_ROWS, NO_ROWS), (8, 0, 0)),
    ]
    cases = []
    for feed, expected in feeds:
        for room in (2, 0):
            assert refusal_to(feed.given or FRESH, feed, room) == expected, expected
            cases.append(Case(output(dice, room), [feed]))
    return cases


def any_state(dice):
    """Within the bound, whether a stream can come to it or not, over outputs that say otherwise; the room is what the ranks need."""
    states = [State(100, 50, 50), State(100, 0, 0), State(100, 100, 100), State(64, 3, 1), State(63, 63, 0), State(1, 1, 1)]
    states += [State(128, 128, 127), FRESH, State(191, 77, 76), State(1000, 999, 998), State(LIMIT - 200, 3, 2)]
    cases = []
    for given in states:
        for before in (FULL, 0, None):
            masks = random_masks(dice, dice.among([0, 1, 30, 64, 100]))
            room = words_for(given.ranks + sum(masks[0])) + dice.below(2)
            words = dice.words(room) if before is None else [before] * room
            feeds = from_state(given, pieces_at(dice, *masks, random_cuts(dice, len(masks[0]), 2)))
            cases.append(ends_as_whole(Case(words, feeds), *masks, given))
    return cases


def states_handed_again(dice):
    """A stream, and then another from a state that the first gave back earlier: its bits go over what is there."""
    cases = []
    for length, back in ((50, 20), (130, 64), (130, 63), (200, 0), (200, 131)):
        first = whole_in_pieces(dice, *random_masks(dice, length), [back, (back + length) // 2])
        given = answers_to(first)[0].state
        again = [mask[: (length - back) // 2] for mask in random_masks(dice, length)]
        feeds = from_state(given, pieces_at(dice, *again, [len(again[0]) // 3]))
        cases.append(first._replace(feeds=first.feeds + feeds))
    return cases


def pieces_of_no_rows(dice):
    """In every form, from many states; ceil(ranks/64) words are wanted for them too."""
    cases = []
    flat = [Operand(ALL, 0), Operand(NONE, 0), Operand(WORDS, 0, 0, 0, []), Operand(WORDS, 0, 63, 0, [FULL])]
    flat += [Operand(LIST, 0), Operand(RUNS, 0)]
    for number, ranks in enumerate((0, 1, 63, 64, 65, 128, 1000, LIMIT - 1, LIMIT)):
        given = State(min(ranks + 7, LIMIT), ranks, ranks // 3)
        for room in sorted({words_for(ranks), max(words_for(ranks) - 1, 0), words_for(ranks) + 1}):
            feeds = [Feed(given, flat[(number + i) % 6], flat[(number + room + 2 * i) % 6]) for i in range(3)]
            cases.append(Case([FULL] * room, feeds))
    return cases


def random_streams(dice, how_many):
    """Cuts anywhere, and now and then a feed that is refused."""
    cases = []
    for _ in range(how_many):
        bad = []
        for _ in range(dice.below(3)):
            right = right_feed(dice, dice.below(50))
            operand = dice.among(bad_operands(dice))
            feed = dice.among([Feed(None, operand, right.other), Feed(None, right.self, operand)])
            bad.append((feed, refusal_of(operand)))
        if dice.below(3) == 0:
            bad.append((outside_feed(dice, 50, dice.below(50)), 17))
        if dice.below(3) == 0:
            bad.append((right_feed(dice, 30)._replace(given=dice.among(bad_states())), 10))
        cases.append(interrupted(dice, bad))
    return cases


def all_cases(dice):
    cases = examples(dice)
    cases += every_cut_of_short_masks(dice)
    cases += three_pieces_of_short_masks(dice)
    cases += random_cuts_of_long_masks(dice)
    cases += cuts_around_words(dice)
    cases += cuts_through_runs(dice)
    cases += pieces_with_no_set_row(dice)
    cases += streams_of_the_limit(dice)
    cases += refused_states(dice)
    cases += refused_operands(dice)
    cases += refused_lengths(dice)
    cases += rows_outside_self(dice)
    cases += over_the_limit(dice)
    cases += too_little_room(dice)
    cases += shorter_after_too_long(dice)
    cases += orders(dice)
    cases += any_state(dice)
    cases += states_handed_again(dice)
    cases += pieces_of_no_rows(dice)
    cases += random_streams(dice, 40)
    return cases


def hold_states(case, answers):
    """A refused feed hands back the state that it was given, and changes nothing; an accepted one leaves 10's bound."""
    state, after = FRESH, case.before
    for one in answers:
        given = state if one.feed.given is None else one.feed.given
        assert one.answer.refusal == 0 or (one.state, one.after) == (given, after)
        assert one.answer.refusal == 10 or is_state(one.state)
        assert one.answer.refusal == 17 or one.answer.row == 0
        state, after = one.state, one.after


def hold(answered):
    """Every mix of forms is accepted, and every refusal is told for each operand that it can name."""
    feeds = [one for _, answers in answered for one in answers]
    accepted = [one for one in feeds if one.answer.refusal == 0]
    mixes = Counter((one.feed.self.form, one.feed.other.form) for one in accepted)
    assert all(mixes[form, other] >= 5 for form in FORMS for other in FORMS if (form, other) != (NONE, ALL)), mixes
    refusals = Counter((one.answer.refusal, one.answer.operand) for one in feeds)
    for operand in (1, 2):
        for number in (1, 2, 3, 4, 5, 6, 14):
            assert refusals[number, operand] >= 5, (number, operand)
    for number in (0, 7, 8, 10, 11, 17):
        assert refusals[number, 0] >= 5, number
    for case, answers in answered:
        hold_states(case, answers)
        assert len(case.before) <= MOST_OUT
    for one in feeds:
        assert has_room(one.feed.self) and has_room(one.feed.other)


def main():
    cases = all_cases(Dice(61))
    answered = [(case, answers_to(case)) for case in cases]
    hold(answered)
    write_cases(sys.argv[1], answered, lines_of)


if __name__ == "__main__":
    main()
