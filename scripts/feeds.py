#!/usr/bin/env python3
"""Writes recorded streams of the composer, with the answers that documents 01 and 02 give.

    scripts/feeds.py FILE

masks.py says how the file is told. A case is two lines and ten for each feed:

    how many feeds
    the output slice before
    given done ranks kept            given 0: the state that the feed before gave back, fresh at first; 1: these three
    form length start claimed        self's piece; form: 0 all, 1 none, 2 words, 3 list, 4 runs
    its lent words
    its lent rows, of runs their numbers in pairs
    form length start claimed        the rank mask's piece
    its lent words
    its lent rows
    refusal operand count route m e  the density is m / 2^e exactly
    done ranks kept                  the state handed back
    the output slice after, all of it

The rows that a feed is to write are cut from the composition of the whole masks, which is made once for a stream, by the
definition that pairs.py has for two whole operands.
"""

import sys
from collections import Counter, namedtuple

from masks import (
    ALL,
    FULL,
    LIMIT,
    LIST,
    MOST_OUT,
    NONE,
    RUNS,
    TOP,
    WORDS,
    Dice,
    Operand,
    as_words,
    density_of,
    has_room,
    held_by,
    in_view,
    mask_of,
    numbers,
    refusal_of,
    runs_in,
    told,
    told_answer,
    words_for,
    write_cases,
)
from pairs import (
    FORMS,
    STARTS,
    bad_operands,
    bits,
    composition,
    exactly,
    lines_of_operand,
    more_bad_runs,
    operand_in,
    output,
    rising,
    route_of,
    routes_of,
    viewed,
)

State = namedtuple("State", "done ranks kept")
# A feed whose given state is None is handed what the feed before gave back.
Feed = namedtuple("Feed", "given self rank")
# Feeds one after the other, whose accepted pieces are together a whole with these rows, from the given state on, or from where
# the stream before ended.
Stream = namedtuple("Stream", "given rows feeds")
Case = namedtuple("Case", "before streams")
Answer = namedtuple("Answer", "refusal operand count route density")
Answered = namedtuple("Answered", "feed answer state after")

FRESH = State(0, 0, 0)
NO_ROWS = Operand(NONE, 0)


# What documents 01 and 02 say.


def refusal_to(state, feed, room):
    """The number and the operand that it names."""
    if not state.kept <= state.ranks <= state.done <= LIMIT:
        return 10, 0
    for number, operand in ((1, feed.self), (2, feed.rank)):
        if refusal_of(operand) != 0:
            return refusal_of(operand), number
    if feed.rank.length != sum(mask_of(feed.self)):
        return 7, 0
    if state.done + feed.self.length > LIMIT:
        return 11, 0
    if room < words_for(state.done + feed.self.length):
        return 8, 0
    return 0, 0


def over(words, at, rows):
    """The rows over the words from bit `at` on; words more where there are not enough."""
    first, end = at // 64, words_for(at + len(rows))
    words = words + [0] * (end - len(words))
    seen = in_view(words[first:end], 0, 64 * max(end - first, 0))
    seen[at - 64 * first : at - 64 * first + len(rows)] = rows
    return words[:first] + as_words(seen) + words[max(first, end) :]


def up_to(whole, before, row):
    """The words of the whole as far as this row, and from it on those that were there before."""
    low = 2 ** (row % 64) - 1
    full = row // 64
    after = whole[:full] + before[full:]
    if low > 0:
        after[full] = (whole[full] & low) + (before[full] & (FULL - low))
    return after


def answers_in(stream, before, given_back):
    """Each feed with what is expected of it."""
    answered = []
    state, after = given_back, before
    origin = given_back.done if stream.given is None else stream.given.done
    whole = over(before, origin, stream.rows)
    for feed in stream.feeds:
        state = state if feed.given is None else feed.given
        refusal, operand = refusal_to(state, feed, len(before))
        answer = Answer(refusal, operand, 0, 0, 0.0)
        if refusal == 0:
            masks = [mask_of(feed.self), mask_of(feed.rank)]
            rows = stream.rows[state.done - origin : state.done - origin + len(masks[0])]
            assert len(rows) == len(masks[0])
            answer = Answer(0, 0, sum(rows), route_of([feed.self.form, feed.rank.form], *masks), density_of(rows))
            state = State(state.done + len(masks[0]), state.ranks + sum(masks[0]), state.kept + sum(rows))
            after = up_to(whole, before, state.done)
        answered.append(Answered(feed, answer, state, after))
    return answered


def answers_to(case):
    answered = []
    state, after = FRESH, case.before
    for stream in case.streams:
        answered += answers_in(stream, after, state)
        if answered:
            state, after = answered[-1].state, answered[-1].after
    return answered


# The file.


def lines_of_feed(answered):
    feed = answered.feed
    given = (0, 0, 0, 0) if feed.given is None else (1,) + feed.given
    lines = [numbers(*given)] + lines_of_operand(feed.self) + lines_of_operand(feed.rank)
    return lines + [told_answer(*answered.answer), numbers(*answered.state), told(answered.after)]


def lines_of(case_and_answers):
    case, answered = case_and_answers
    lines = [numbers(len(answered)), told(case.before)]
    for one in answered:
        lines += lines_of_feed(one)
    return lines


# Pieces, and streams of them.


def forms_of(mask):
    """The forms that can hold the mask."""
    forms = [WORDS, LIST, RUNS]
    if all(mask):
        forms.append(ALL)
    if not any(mask):
        forms.append(NONE)
    return forms


def piece_of(dice, mask, form=None):
    """In this form, or in any that can hold the mask."""
    if form not in forms_of(mask):
        form = dice.among(forms_of(mask))
    return operand_in(dice, form, mask, dice.among(STARTS + (dice.below(64),)))


def pieces_at(dice, self_mask, rank_mask, cuts, forms=()):
    """The feeds of two whole masks cut at these rows; the forms of self's and of the rank mask's pieces in turn, or any."""
    feeds = []
    ends = list(cuts) + [len(self_mask)]
    start = rank = 0
    for number, end in enumerate(ends):
        mask = self_mask[start:end]
        count = sum(mask)
        form, rank_form = forms[number % len(forms)] if forms else (None, None)
        feeds.append(Feed(None, piece_of(dice, mask, form), piece_of(dice, rank_mask[rank : rank + count], rank_form)))
        start, rank = end, rank + count
    return feeds


def from_state(given, rows, feeds):
    """A stream from a given state on, which its first feed is handed."""
    return Stream(given, rows, [feeds[0]._replace(given=given)] + feeds[1:])


def whole_and_pieces(dice, self_mask, rank_mask, cuts, forms=()):
    return Stream(None, composition(self_mask, rank_mask), pieces_at(dice, self_mask, rank_mask, cuts, forms))


def random_masks(dice, length):
    """A self mask and a rank mask as long as its count."""
    self_mask = dice.among([dice.mask(length, dice.among([0, 1, 8, 8, 12, 16])), dice.turning(length, 50)])
    count = sum(self_mask)
    return self_mask, dice.among([dice.mask(count, dice.among([0, 8, 8, 12, 16])), dice.turning(count, 50)])


def case_in(room, *streams):
    """All ones before, so that every bit that is not to be touched shows."""
    return Case([FULL] * room, list(streams))


# The cases.


def examples(dice):
    """E12: the program's masks, 0110 with 10 and 1011 with 010; the whole, fed at once, gives the same output."""
    self_mask, rank_mask = bits("01101011"), bits("10010")
    cases = []
    for cuts in ([4], []):
        cases.append(case_in(1, whole_and_pieces(dice, self_mask, rank_mask, cuts, [(WORDS, WORDS)])))
        last = answers_to(cases[-1])[-1]
        assert last.state == State(8, 5, 2) and last.after == [FULL - 255 + as_words(bits("01000010"))[0]]
    pieces = cases[0].streams[0].feeds
    assert mask_of(pieces[0].rank) == bits("10") and mask_of(pieces[1].rank) == bits("010")
    # A stream that is fed nothing at all.
    cases.append(case_in(1, Stream(None, [], [])))
    return cases


def every_cut_of_short_masks(dice):
    """In two pieces. Every mix of forms comes up again and again; the room is exact, or a word more."""
    mixes = [(form, rank_form) for form in FORMS for rank_form in FORMS]
    cases = []
    for more in (0, 1):
        for length in range(13):
            for cut in range(length + 1):
                at = len(cases)
                forms = [mixes[at % 25], mixes[(at // 25 + 7 * at) % 25]]
                masks = shaped_for(dice, forms, (cut, length - cut))
                cases.append(case_in(words_for(length) + more, whole_and_pieces(dice, *masks, [cut], forms)))
    return cases


def shaped_for(dice, forms, lengths):
    """Masks whose pieces can have these forms: all ones for all, none for none, anything for words, lists and runs."""
    self_mask, rank_mask = [], []
    for (form, rank_form), length in zip(forms, lengths):
        mask = shaped(dice, form, length)
        self_mask += mask
        rank_mask += shaped(dice, rank_form, sum(mask))
    return self_mask, rank_mask


def shaped(dice, form, length):
    if form in (ALL, NONE):
        return [form == ALL] * length
    return dice.mask(length, dice.among([4, 8, 12]))


def three_pieces_of_short_masks(dice):
    cases = []
    for length in (2, 3, 5):
        for first in range(length + 1):
            for second in range(first, length + 1):
                stream = whole_and_pieces(dice, *random_masks(dice, length), [first, second])
                cases.append(case_in(1 + (first + second) % 2, stream))
    return cases


def random_cuts(dice, length, how_many):
    """Some of them alike: a piece of no rows."""
    cuts = [dice.below(length + 1) for _ in range(how_many)]
    return sorted(cuts + [cut for cut in cuts if dice.below(4) == 0])


def random_cuts_of_long_masks(dice):
    cases = []
    lengths = [63, 64, 65, 127, 128, 129, 191, 192, 193, 256, 511, 512, 513]
    for length in 2 * lengths + [1000, 2047, 4096, 4097, 5000]:
        stream = whole_and_pieces(dice, *random_masks(dice, length), random_cuts(dice, length, 2 + dice.below(4)))
        cases.append(Case(output(dice, words_for(length) + dice.below(2)), [stream]))
    return cases


def cuts_around_words(dice):
    """Pieces that end a bit before a word's end, at it, and a bit after it."""
    cases = []
    for first in (63, 64, 65):
        for second in (127, 128, 129):
            self_mask = dice.mask(200, 8)
            rank_mask = dice.mask(sum(self_mask), 8)
            stream = whole_and_pieces(dice, self_mask, rank_mask, [first, first, second])
            cases.append(case_in(words_for(200) + 1, stream))
    return cases


def cuts_through_runs(dice):
    """Three runs, cut in two inside a run, at its ends and between; the ranks, in one run or two, are then cut so too."""
    self_mask = held_by(runs_in([5, 70, 80, 200, 210, 211]), 220)
    count = sum(self_mask)
    cases = []
    for cut in (4, 5, 6, 63, 64, 65, 69, 70, 71, 75, 79, 80, 81, 127, 128, 129, 199, 200, 205, 210, 211):
        for ranks in ([0, count], [3, 68, 70, 180], [60, 64, 66, count]):
            form = FORMS[len(cases) % 5]
            forms = [(RUNS, RUNS), (RUNS, form), (form, RUNS)][len(cases) // 5 % 3 :]
            stream = whole_and_pieces(dice, self_mask, held_by(runs_in(ranks), count), [cut], forms)
            cases.append(case_in(words_for(220) + cut % 2, stream))
    return cases


def one_run_in_many_pieces(dice):
    """One run over all, and one that begins in the first piece and ends in the last, in pieces that a run fills, or nearly."""
    cases = []
    for first, past in ((0, 200), (3, 197)):
        self_mask = held_by([(first, past)], 200)
        rank_mask = held_by([(1, past - first - 1)], past - first)
        for cuts in ([64, 128], [1, 63, 65], [50, 50, 100, 150], [10, 20, 30, 190]):
            stream = whole_and_pieces(dice, self_mask, rank_mask, cuts, [(RUNS, RUNS)])
            cases.append(case_in(words_for(200), stream))
    return cases


def masks_on(dice, route, number):
    """Masks and forms of a piece that takes this route; those forms in turn that count as a list."""
    form, rank_form = [(LIST, LIST), (RUNS, RUNS), (LIST, RUNS), (RUNS, LIST)][number % 4]
    length = 300 + dice.below(400)
    sparse, dense = exactly(dice, length, length // 16 - 1), dice.mask(length, 8)
    half = dice.mask(sum(dense), 8)
    few = exactly(dice, sum(dense), 1 + dice.below(3))
    some = exactly(dice, sum(sparse), sum(sparse) // 2)
    kinds = {
        1: ([True] * length, dice.mask(length, 8), None, None),
        2: (dense, [True] * sum(dense), None, None),
        3: (dense, [False] * sum(dense), None, None),
        4: (dense, half, form, rank_form),
        5: (dense, half, form, WORDS),
        6: (dense, few, WORDS, (WORDS, LIST, RUNS)[number % 3]),
        7: (dense, half, WORDS, rank_form),
        8: (sparse, some, WORDS, rank_form),
        9: (dense, half, WORDS, WORDS),
        10: (sparse, some, WORDS, WORDS),
    }
    return kinds[route]


def shuffled(dice, elements):
    elements = list(elements)
    for i in range(len(elements) - 1, 0, -1):
        j = dice.below(i + 1)
        elements[i], elements[j] = elements[j], elements[i]
    return elements


def stream_of(dice, parts):
    """A stream of parts (self mask, rank mask, form, rank form)."""
    self_mask, rank_mask, cuts, forms = [], [], [], []
    for mask, ranks, form, rank_form in parts:
        self_mask += mask
        rank_mask += ranks
        cuts.append(len(self_mask))
        forms.append((form, rank_form))
    return whole_and_pieces(dice, self_mask, rank_mask, cuts[:-1], forms)


def streams_on_every_route(dice):
    cases = []
    for number in range(5):
        stream = stream_of(dice, [masks_on(dice, route, number) for route in shuffled(dice, range(1, 11))])
        cases.append(case_in(words_for(len(stream.rows)) + dice.below(2), stream))
    return cases


# Streams of 1,048,576 rows: words that are all alike, or that rise, or a rank mask of two plain halves, so that few stretches tell
# them.


def alike(pattern, start, length):
    return viewed([pattern] * (words_for(length) + 1), start, length)


def risen(done, shift, length):
    """Rising words whose view is off the output's words by so few bits that the output's rise too."""
    return viewed(rising(words_for(length) + 2), (done + shift) % 64, length)


def broken(dice, length, start):
    """All ones, a word of anything, then no rows."""
    size = words_for(start + length)
    return viewed([FULL] * (size // 2) + dice.words(1) + [0] * (size - size // 2 - 1), start, length)


def some_listed(count):
    """The ranks in the middle."""
    size = min(count // 2 + 1, 4096)
    return Operand(LIST, count, rows=range(count // 4, count // 4 + size))


def long_pair(dice, route, done, length):
    """Operands of one route, each in its form."""
    shift = dice.below(4)
    two = alike(0x0000400000000002, dice.below(64), length)
    four = alike(0x8001100000400001, dice.below(64), length)
    rise = risen(done, shift, length)
    few = Operand(LIST, rise.claimed, rows=[0, 1, rise.claimed // 3, rise.claimed - 1])
    entries = Operand(LIST, length, rows=list(range(63, length, 64))[:4096])
    pairs = {
        1: (Operand(ALL, length), rise),
        2: (rise, Operand(ALL, rise.claimed)),
        3: (rise, Operand(NONE, rise.claimed)),
        4: (entries, some_listed(len(entries.rows))),
        5: (entries, broken(dice, len(entries.rows), dice.below(64))),
        6: (rise, few),
        7: (four, some_listed(four.claimed)),
        8: (two, some_listed(two.claimed)),
        9: (rise, broken(dice, rise.claimed, dice.below(64))),
        10: (two, broken(dice, two.claimed, dice.below(64))),
    }
    return pairs[route]


def long_pair_in_runs(dice, route, done, length):
    """The same of routes 1 to 8, with runs wherever the route allows them."""
    two = alike(0x0000400000000002, dice.below(64), length)
    four = alike(0x8001100000400001, dice.below(64), length)
    rise = risen(done, dice.below(4), length)
    parts = Operand(RUNS, length, rows=[7, length // 3, length // 3 + 65, length - 1])
    count = sum(mask_of(parts))
    few = Operand(RUNS, rise.claimed, rows=[0, 2, rise.claimed // 3, rise.claimed // 3 + 7])
    pairs = {
        1: (Operand(RUNS, length, rows=[0, length]), some_in_runs(length)),
        2: (parts, Operand(RUNS, count, rows=[0, count])),
        3: (parts, Operand(RUNS, count)),
        4: (parts, some_in_runs(count)),
        5: (parts, broken(dice, count, dice.below(64))),
        6: (rise, few),
        7: (four, some_in_runs(four.claimed)),
        8: (two, some_in_runs(two.claimed)),
    }
    return pairs[route]


def some_in_runs(count):
    """All but a few ranks, in three runs."""
    return Operand(RUNS, count, rows=[1, count // 3, count // 3 + 1, count // 2 + 9, count // 2 + 70, count])


def long_stream(dice, routes, lengths, pair_on):
    feeds = []
    done = 0
    for route, length in zip(routes, lengths):
        pair = (NO_ROWS, NO_ROWS) if length == 0 else pair_on(dice, route, done, length)
        feeds.append(Feed(None, *pair))
        done += length
    self_mask = [row for feed in feeds for row in mask_of(feed.self)]
    rank_mask = [row for feed in feeds for row in mask_of(feed.rank)]
    return Stream(None, composition(self_mask, rank_mask), feeds)


def streams_of_the_limit(dice):
    cases = []
    mixed = [shuffled(dice, range(1, 11)), shuffled(dice, list(range(1, 11)) + [3, 9, 10, 4, 7]), [10, 9, 5, 8, 6]]
    in_runs = shuffled(dice, range(1, 9))
    for routes, pair_on in [(routes, long_pair) for routes in mixed] + [(in_runs, long_pair_in_runs)]:
        least = 20000
        spare = LIMIT - least * len(routes)
        cuts = [0] + sorted(dice.below(spare + 1) for _ in routes[1:]) + [spare]
        lengths = [least + b - a for a, b in zip(cuts, cuts[1:])]
        stream = long_stream(dice, routes + [3], lengths + [0], pair_on)
        # A row more is refused; the piece of no rows after it is not.
        feeds = stream.feeds[:-1] + [Feed(None, Operand(NONE, 1), NO_ROWS), stream.feeds[-1]]
        cases.append(case_in(words_for(LIMIT) + len(cases) % 2, stream._replace(feeds=feeds)))
        assert [one.answer.refusal for one in answers_to(cases[-1])] == [0] * len(routes) + [11, 0]
    return cases


# Refused feeds, and states that are given.


def bad_states():
    """Each of the three bounds broken, alone and with others."""
    top = 2**64 - 1
    return [
        State(100, 50, 51),
        State(100, 0, 1),
        State(100, 50, top),
        State(0, 0, 1),
        State(100, 101, 50),
        State(0, 1, 1),
        State(100, top, 50),
        State(100, top, top),
        State(LIMIT + 1, 0, 0),
        State(LIMIT + 1, LIMIT + 1, LIMIT + 1),
        State(top, 0, 0),
        State(top, top, top),
        State(2**63, 2**63, 1),
        State(LIMIT, LIMIT + 1, LIMIT),
        State(5, 6, 7),
    ]


def right_feed(dice, length):
    self_mask, rank_mask = random_masks(dice, length)
    return Feed(None, piece_of(dice, self_mask), piece_of(dice, rank_mask))


def interrupted(dice, bad_feeds):
    """A stream that goes on after each refused feed as if that had not been; what a given state says is forgotten, so the state
    that stood is told after it."""
    self_mask, rank_mask = dice.mask(100 + dice.below(60), 8), None
    rank_mask = dice.mask(sum(self_mask), 8)
    stream = whole_and_pieces(dice, self_mask, rank_mask, random_cuts(dice, len(self_mask), len(bad_feeds)))
    room = words_for(len(self_mask)) + dice.below(2)
    feeds = []
    state, after_given = FRESH, False
    for number, feed in enumerate(stream.feeds):
        feeds.append(feed._replace(given=state) if after_given else feed)
        state = moved(state, feed, stream.rows)
        after_given = False
        if number < len(bad_feeds):
            bad, expected = bad_feeds[number]
            assert refusal_to(bad.given or state, bad, room)[0] == expected, (bad, expected)
            feeds.append(bad)
            after_given = bad.given is not None
    return Case(output(dice, room), [stream._replace(feeds=feeds)])


def moved(state, feed, rows):
    count = sum(mask_of(feed.self))
    end = state.done + feed.self.length
    return State(end, state.ranks + count, state.kept + sum(rows[state.done : end]))


def refused_states(dice):
    bad = [(right_feed(dice, 10)._replace(given=given), 10) for given in bad_states()]
    return [interrupted(dice, bad[at : at + 5]) for at in range(0, len(bad), 5)]


def refused_operands(dice):
    cases = []
    for operand in 2 * bad_operands(dice) + more_bad_runs():
        right = right_feed(dice, 40)
        bad = [(Feed(None, operand, right.rank), refusal_of(operand)), (Feed(None, right.self, operand), refusal_of(operand))]
        cases.append(interrupted(dice, bad))
    return cases


def refused_rank_lengths(dice):
    """7, by one too short or too long, or as long as self."""
    cases = []
    for _ in range(4):
        self_piece = piece_of(dice, exactly(dice, 40, 20))
        wrong = [Feed(None, self_piece, piece_of(dice, dice.mask(length, 8))) for length in (19, 21, 40)]
        cases.append(interrupted(dice, [(feed, 7) for feed in wrong]))
    return cases


def over_the_limit(dice):
    """11: from any state, by one row and by many, and right up to it."""
    cases = []
    for done, length in ((LIMIT, 1), (LIMIT - 9, 10), (LIMIT - 9, 200), (1, LIMIT), (LIMIT, LIMIT)):
        given = State(done, done // 2, done // 4)
        feed = Feed(given, Operand(ALL, length), Operand(NONE, length))
        assert refusal_to(given, feed, words_for(LIMIT)) == (11, 0)
        case = case_in(words_for(LIMIT) + 1, Stream(given, [], [feed]))
        fitting = min(LIMIT - done, 9)
        self_mask, rank_mask = exactly(dice, fitting, fitting // 2), dice.mask(fitting // 2, 8)
        stream = from_state(given, composition(self_mask, rank_mask), pieces_at(dice, self_mask, rank_mask, [fitting // 2]))
        cases.append(case._replace(streams=case.streams + [stream]))
    return cases


def too_little_room(dice):
    """8: a piece that ends in the word past the output; one that ends with the output is accepted before it."""
    cases = []
    for room in (0, 1, 2, 3):
        for form in (WORDS, LIST, RUNS):
            self_mask, rank_mask = random_masks(dice, 64 * room + 1)
            cuts = [dice.below(64 * room + 1), 64 * room]
            stream = whole_and_pieces(dice, self_mask, rank_mask, cuts, [(form, None), (form, None)])
            cases.append(Case(output(dice, room), [stream]))
            assert [one.answer.refusal for one in answers_to(cases[-1])] == [0, 0, 8]
    return cases


def shorter_after_too_long(dice):
    """8 for a piece that is too long for the output, and then the piece that fills it."""
    cases = []
    for room in (1, 2, 3):
        for left in (0, 1, 30, 64):
            self_mask, rank_mask = random_masks(dice, 64 * room)
            stream = whole_and_pieces(dice, self_mask, rank_mask, [64 * room - left])
            too_long = right_feed(dice, left + 1 + dice.below(70))
            cases.append(Case(output(dice, room), [stream._replace(feeds=[stream.feeds[0], too_long, stream.feeds[1]])]))
            assert [one.answer.refusal for one in answers_to(cases[-1])] == [0, 8, 0]
    return cases


BAD_STATE, NEAR = State(9, 10, 3), State(LIMIT - 5, 7, 7)


def orders_of_runs():
    """14 after 10, beside the other operand's numbers, and before 7, 11 and 8; feeds of right runs are refused with these."""
    ones, run = Operand(ALL, 10), Operand(RUNS, 10, rows=[0, 10])
    touching, unpaired = Operand(RUNS, 10, rows=[3, 5, 5, 7]), Operand(RUNS, 10, rows=[3])
    return [
        (Feed(BAD_STATE, touching, unpaired), (10, 0)),
        (Feed(None, touching, Operand(LIST, 10, rows=[3, 3])), (14, 1)),
        (Feed(NEAR, unpaired, touching), (14, 1)),
        (Feed(None, Operand(LIST, 10, rows=[3, 10]), touching), (6, 1)),
        (Feed(None, Operand(RUNS, LIMIT + 1, rows=[5, 5]), touching), (1, 1)),
        (Feed(NEAR, ones, touching), (14, 2)),
        (Feed(None, ones, Operand(RUNS, 9, rows=[3, TOP])), (14, 2)),
        (Feed(None, run, Operand(RUNS, 10, rows=[0, 11])), (14, 2)),
        (Feed(NEAR, run, Operand(RUNS, 9, rows=[0, 9])), (7, 0)),
        (Feed(NEAR, run, Operand(RUNS, 10, rows=[2, 4])), (11, 0)),
        (Feed(State(120, 0, 0), run, run), (8, 0)),
    ]


def orders(dice):
    """Where more than one refusal holds the first is told: 10, operand 1, operand 2, 7, 11, 8."""
    bad_state, near = BAD_STATE, NEAR
    ones, none = Operand(ALL, 10), Operand(NONE, 10)
    no_order, past = Operand(LIST, 10, rows=[3, 3]), Operand(LIST, 10, rows=[3, 10])
    wrong = Operand(WORDS, 10, 3, 2**64 - 1, [FULL])
    feeds = [
        (Feed(bad_state, ones, none), (10, 0)),
        (Feed(bad_state, no_order, past), (10, 0)),
        (Feed(bad_state, ones, past), (10, 0)),
        (Feed(bad_state, ones, Operand(ALL, 9)), (10, 0)),
        (Feed(State(LIMIT + 1, 7, 8), ones, none), (10, 0)),
        (Feed(None, no_order, past), (5, 1)),
        (Feed(None, past, no_order), (6, 1)),
        (Feed(None, wrong, no_order), (4, 1)),
        (Feed(near, Operand(ALL, LIMIT + 1), none), (1, 1)),
        (Feed(near, ones, wrong), (4, 2)),
        (Feed(None, ones, Operand(ALL, LIMIT + 1)), (1, 2)),
        (Feed(None, ones, Operand(WORDS, 9, 64, 9, [])), (2, 2)),
        (Feed(near, ones, Operand(WORDS, 10, 0, 9, [])), (3, 2)),
        (Feed(near, ones, Operand(ALL, 9)), (7, 0)),
        (Feed(State(LIMIT, 0, 0), ones, Operand(NONE, 11)), (7, 0)),
        (Feed(None, Operand(ALL, 300), Operand(ALL, 299)), (7, 0)),
        (Feed(near, ones, no_order), (5, 2)),
        (Feed(near, ones, none), (11, 0)),
        (Feed(near, Operand(NONE, 5), NO_ROWS), (8, 0)),
        (Feed(State(70, 0, 0), Operand(NONE, 59), NO_ROWS), (8, 0)),
    ]
    cases = []
    for feed, expected in feeds + orders_of_runs():
        for room in (2, 0):
            state = feed.given or FRESH
            assert refusal_to(state, feed, room) == expected, expected
            cases.append(Case(output(dice, room), [Stream(state, [], [feed])]))
    return cases


def any_state(dice):
    """Within the bound, whether a stream can come to it or not, over outputs that say otherwise."""
    states = [State(100, 50, 50), State(100, 0, 0), State(100, 100, 100), State(64, 3, 1), State(63, 63, 0), State(1, 1, 1)]
    states += [State(128, 128, 127), State(FRESH.done, 0, 0), State(191, 77, 76), State(1000, 999, 998)]
    cases = []
    for given in states:
        for before in (FULL, 0, None):
            length = dice.among([0, 1, 30, 64, 100])
            room = words_for(given.done + length) + dice.below(2)
            self_mask, rank_mask = random_masks(dice, length)
            feeds = pieces_at(dice, self_mask, rank_mask, random_cuts(dice, length, 2))
            words = dice.words(room) if before is None else [before] * room
            cases.append(Case(words, [from_state(given, composition(self_mask, rank_mask), feeds)]))
    return cases


def states_handed_again(dice):
    """A stream, and then another from a state that the first gave back earlier: its pieces go over what is there."""
    cases = []
    for length, back in ((50, 20), (130, 64), (130, 63), (200, 0), (200, 131)):
        masks = random_masks(dice, length)
        first = whole_and_pieces(dice, *masks, [back, (back + length) // 2])
        case = case_in(words_for(length), first)
        given = answers_to(case)[0].state
        self_mask, rank_mask = random_masks(dice, (length - back) // 2)
        feeds = pieces_at(dice, self_mask, rank_mask, [len(self_mask) // 3])
        cases.append(case._replace(streams=[first, from_state(given, composition(self_mask, rank_mask), feeds)]))
    return cases


def pieces_of_no_rows(dice):
    """In every form, from many states; ceil(done/64) words are wanted for them too."""
    cases = []
    flat = [Operand(ALL, 0), Operand(NONE, 0), Operand(WORDS, 0, 0, 0, []), Operand(WORDS, 0, 63, 0, [FULL])]
    flat += [Operand(LIST, 0), Operand(RUNS, 0)]
    for number, done in enumerate((0, 1, 63, 64, 65, 128, 1000, LIMIT - 1, LIMIT)):
        given = State(done, done, done // 3)
        for room in sorted({words_for(done), max(words_for(done) - 1, 0), words_for(done) + 1}):
            feeds = [Feed(given, flat[(number + i) % 6], flat[(number + room + 2 * i) % 6]) for i in range(3)]
            cases.append(case_in(room, Stream(given, [], feeds)))
    return cases


def random_streams(dice, how_many):
    """Cuts anywhere, and now and then a feed that is refused."""
    cases = []
    for _ in range(how_many):
        bad = []
        for _ in range(dice.below(3)):
            right = right_feed(dice, dice.below(50))
            operand = dice.among(bad_operands(dice))
            feed = dice.among([Feed(None, operand, right.rank), Feed(None, right.self, operand)])
            bad.append((feed, refusal_of(operand)))
        if dice.below(3) == 0:
            bad.append((right_feed(dice, 30)._replace(given=dice.among(bad_states())), 10))
        cases.append(interrupted(dice, bad))
    return cases


def all_cases(dice):
    cases = examples(dice)
    cases += every_cut_of_short_masks(dice)
    cases += three_pieces_of_short_masks(dice)
    cases += random_cuts_of_long_masks(dice)
    cases += cuts_around_words(dice)
    cases += cuts_through_runs(dice)
    cases += one_run_in_many_pieces(dice)
    cases += streams_on_every_route(dice)
    cases += streams_of_the_limit(dice)
    cases += refused_states(dice)
    cases += refused_operands(dice)
    cases += refused_rank_lengths(dice)
    cases += over_the_limit(dice)
    cases += too_little_room(dice)
    cases += shorter_after_too_long(dice)
    cases += orders(dice)
    cases += any_state(dice)
    cases += states_handed_again(dice)
    cases += pieces_of_no_rows(dice)
    cases += random_streams(dice, 40)
    return cases


def hold_mixes(accepted):
    """Every mix of forms comes up, and takes every route that it can take; runs of many rows take each of 1 to 8."""
    mixes = Counter((one.feed.self.form, one.feed.rank.form) for one in accepted)
    assert len(mixes) == 25 and min(mixes.values()) >= 5, mixes
    taken = {(one.feed.self.form, one.feed.rank.form, one.answer.route) for one in accepted}
    able = {(form, rank_form, route) for form in FORMS for rank_form in FORMS for route in routes_of(form, rank_form)}
    assert taken == able, taken ^ able
    large = [one for one in accepted if one.feed.self.length > 10000]
    in_runs = {one.answer.route for one in large if RUNS in (one.feed.self.form, one.feed.rank.form)}
    assert in_runs == set(range(1, 9)), in_runs


def hold_states(case, answers):
    """A refused feed hands back the state that it was given, and changes nothing."""
    state, after = FRESH, case.before
    for one in answers:
        given = state if one.feed.given is None else one.feed.given
        assert one.answer.refusal == 0 or (one.state, one.after) == (given, after)
        assert one.answer.refusal == 10 or one.state.kept <= one.state.ranks <= one.state.done <= LIMIT
        state, after = one.state, one.after


def hold(answered):
    """Every route is taken, also in streams of 1,048,576 rows, and every refusal is told for each operand that it can name."""
    feeds = [one for _, answers in answered for one in answers]
    accepted = [one for one in feeds if one.answer.refusal == 0]
    routes = Counter(one.answer.route for one in accepted)
    large = Counter(one.answer.route for one in accepted if one.feed.self.length > 10000)
    refusals = Counter((one.answer.refusal, one.answer.operand) for one in feeds)
    for route in range(1, 11):
        assert routes[route] >= 5 and large[route] >= 1, route
    hold_mixes(accepted)
    for operand in (1, 2):
        for number in (1, 2, 3, 4, 5, 6, 14):
            assert refusals[number, operand] >= 5, (number, operand)
    for number in (0, 7, 8, 10, 11):
        assert refusals[number, 0] >= 5, number
    for case, answers in answered:
        hold_states(case, answers)
        assert len(case.before) <= MOST_OUT
    for one in feeds:
        assert has_room(one.feed.self) and has_room(one.feed.rank)


def main():
    cases = all_cases(Dice(32))
    answered = [(case, answers_to(case)) for case in cases]
    hold(answered)
    write_cases(sys.argv[1], answered, lines_of)


if __name__ == "__main__":
    main()
