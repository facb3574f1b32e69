"""What the scripts that write recorded cases share: operands, their checks and what they mean, as document 01 has them; how
slices are told; and makers of operands.

A mask is a plain list of bools here, row 0 first. The random numbers come from a generator of this file's own, so that the
same files are written each time.

A file is a text of hex numbers. It begins with the number of cases. A slice is told as a number of stretches, then
`count first step` for each: first, first + step, .. modulo 2^64. A run is a run of rows, and nothing else.
"""

LIMIT = 1048576
ALL, NONE, WORDS, LIST, RUNS = 0, 1, 2, 3, 4
FULL = 2**64 - 1
TOP = 2**32 - 1
SMALL_LENGTHS = [0, 1, 63, 64, 65, 127, 128, 129]

# What crates/recorded has room for: lent words, lent rows, which an output of rows has too, an output of words, a file's bytes.
MOST_WORDS, MOST_ROWS, MOST_OUT, MOST_BYTES = 16386, 4100, 16388, 499999


class Operand:
    """Only words have a start and a claimed count. Runs lie where a list has its rows: first row, row past the last, first row, .."""

    def __init__(self, form, length, start=0, claimed=0, words=(), rows=()):
        self.form, self.length, self.start, self.claimed = form, length, start, claimed
        self.words, self.rows = list(words), list(rows)


# The numbers of examples/weeks: one node over 52 weeks, its runs of leaks, the ranks in release 7's time, and the rows that these are.
WEEKS_LENGTH = 52416
WEEKS_SELF = [7038, 11088, 20142, 23616, 33246, 41328]
WEEKS_RANK = [2034, 10566]
WEEKS_RESULT = [9072, 11088, 20142, 23616, 33246, 36288]


# What documents 01 and 02 say.


def words_for(bits):
    return (bits + 63) // 64


def in_view(words, start, length):
    """Row i is bit start+i of the words, bit 0 of each the lowest: each word is written as its digits, the lowest first."""
    digits = "".join(f"{word:064b}"[::-1] for word in words[: words_for(start + length)])
    return [digit == "1" for digit in digits[start : start + length]]


def refusal_of_words(operand):
    if operand.start > 63:
        return 2
    if len(operand.words) < words_for(operand.start + operand.length):
        return 3
    if operand.claimed != sum(in_view(operand.words, operand.start, operand.length)):
        return 4
    return 0


def refusal_of_list(operand):
    for before, after in zip(operand.rows, operand.rows[1:]):
        if after <= before:
            return 5
    if operand.rows and operand.rows[-1] >= operand.length:
        return 6
    return 0


def runs_in(rows):
    """First row and row past the last of each run; a number without its pair is left out."""
    return list(zip(rows[0::2], rows[1::2]))


def refusal_of_runs(operand):
    """A number without its pair, an empty run, one that overlaps or touches the run before it, one past the length."""
    if len(operand.rows) % 2 == 1:
        return 14
    runs = runs_in(operand.rows)
    for first, past in runs:
        if past <= first or past > operand.length:
            return 14
    for (_, past_before), (first, _) in zip(runs, runs[1:]):
        if first <= past_before:
            return 14
    return 0


def refusal_of(operand):
    if operand.length > LIMIT:
        return 1
    if operand.form == WORDS:
        return refusal_of_words(operand)
    if operand.form == LIST:
        return refusal_of_list(operand)
    if operand.form == RUNS:
        return refusal_of_runs(operand)
    return 0


def held_by(runs, length):
    """A row is set if a run holds it: first <= row < past."""
    mask = [False] * length
    for first, past in runs:
        for row in range(first, past):
            mask[row] = True
    return mask


def mask_of(operand):
    """The rows of an accepted operand."""
    if operand.form == ALL:
        return [True] * operand.length
    if operand.form == NONE:
        return [False] * operand.length
    if operand.form == WORDS:
        return in_view(operand.words, operand.start, operand.length)
    if operand.form == RUNS:
        return held_by(runs_in(operand.rows), operand.length)
    listed = set(operand.rows)
    return [row in listed for row in range(operand.length)]


def as_words(mask):
    """64 rows to a word, the last row its highest digit."""
    digits = ["1" if is_set else "0" for is_set in mask]
    return [int("".join(reversed(digits[at : at + 64])), 2) for at in range(0, len(mask), 64)]


def as_list(mask):
    return [row for row, is_set in enumerate(mask) if is_set]


def as_runs(mask):
    """The rows at which the mask turns, to set and back in turn: a run's first row, its row past the last, and so on."""
    return [row for row, (before, here) in enumerate(zip([False] + mask, mask + [False])) if before != here]


def density_of(mask):
    return sum(mask) / len(mask) if mask else 0.0


# The file.


def stretches_of(elements):
    """Each stretch as long as it can be, from the front on."""
    stretches = []
    at = 0
    while at < len(elements):
        step = 0
        end = at + 1
        if end < len(elements):
            step = (elements[end] - elements[at]) % 2**64
        while end < len(elements) and (elements[end] - elements[end - 1]) % 2**64 == step:
            end += 1
        stretches.append((end - at, elements[at], step))
        at = end
    return stretches


def numbers(*values):
    return " ".join("%x" % value for value in values)


def told(elements):
    stretches = stretches_of(elements)
    return " ".join([numbers(len(stretches))] + [numbers(*stretch) for stretch in stretches])


def told_answer(refusal, operand, count, route, density):
    """The density is m / 2^e exactly, told as m and e."""
    numerator, denominator = density.as_integer_ratio()
    return numbers(refusal, operand, count, route, numerator, denominator.bit_length() - 1)


def has_room(operand):
    """In crates/recorded."""
    return len(operand.words) <= MOST_WORDS and len(operand.rows) <= MOST_ROWS


def write_cases(path, cases, lines_of):
    text = numbers(len(cases)) + "\n"
    text += "".join("\n" + "\n".join(lines_of(case)) + "\n" for case in cases)
    assert len(text) <= MOST_BYTES, len(text)
    with open(path, "w") as file:
        file.write(text)


# The operands.


class Dice:
    """A generator of 64-bit numbers: a counter, mixed."""

    def __init__(self, seed):
        self.state = seed

    def word(self):
        self.state = (self.state + 0x9E3779B97F4A7C15) % 2**64
        mixed = self.state
        mixed = ((mixed ^ (mixed >> 30)) * 0xBF58476D1CE4E5B9) % 2**64
        mixed = ((mixed ^ (mixed >> 27)) * 0x94D049BB133111EB) % 2**64
        return mixed ^ (mixed >> 31)

    def below(self, n):
        return self.word() % n

    def among(self, choices):
        return choices[self.below(len(choices))]

    def words(self, n):
        return [self.word() for _ in range(n)]

    def rows(self, n):
        return [self.below(2**32) for _ in range(n)]

    def mask(self, length, sixteenths):
        return [self.below(16) < sixteenths for _ in range(length)]

    def turning(self, length, longest):
        """A mask of runs and gaps of up to so many rows each."""
        mask = []
        is_set = self.below(2) == 0
        while len(mask) < length:
            mask += [is_set] * (1 + self.below(longest))
            is_set = not is_set
        return mask[:length]


def lent(mask, start, outside):
    """As many words as `outside` has: the mask from bit `start` on, and the bits of `outside` around it."""
    bits = in_view(outside, 0, 64 * len(outside))
    bits[start : start + len(mask)] = mask
    return as_words(bits)


def words_operand(dice, mask, start):
    needed = words_for(start + len(mask))
    more = dice.below(3) // 2
    outside = dice.among([[FULL] * (needed + more), dice.words(needed + more), [0] * needed])
    return Operand(WORDS, len(mask), start, sum(mask), lent(mask, start, outside), dice.rows(dice.below(3)))


def list_operand(dice, mask):
    return Operand(LIST, len(mask), words=dice.words(dice.below(3)), rows=as_list(mask))


def runs_operand(dice, mask):
    return Operand(RUNS, len(mask), words=dice.words(dice.below(3)), rows=as_runs(mask))


def flat_operand(dice, form, length):
    return Operand(form, length, words=dice.words(dice.below(3)), rows=dice.rows(dice.below(3)))


def spoilt_runs(dice, operand):
    """One fault: runs that touch, an empty run, a number without its pair, a run past the length, a number near 2^32."""
    rows = operand.rows
    run = 2 * dice.below(len(rows) // 2)
    fault = dice.below(6)
    if fault == 0 and run > 0:
        rows[run] = rows[run - 1]
    if fault == 1:
        rows[run + 1] = rows[run]
    if fault == 2:
        rows.pop(run + dice.below(2))
    if fault == 3:
        rows[-1] = operand.length + 1
    if fault == 4:
        operand.length = rows[-1] - 1
    if fault == 5:
        rows[run + dice.below(2)] = TOP - dice.below(2)
    return operand


def spoilt(dice, operand):
    """Now and then a wrong count, a word too few, two rows out of order, or a fault of runs."""
    fault = dice.below(12)
    if fault == 0 and operand.form == WORDS:
        operand.claimed = (operand.claimed + dice.among([1, -1, operand.length, 2**40])) % 2**64
    if fault == 1 and operand.words:
        operand.words.pop()
    if fault == 2 and operand.form == LIST and len(operand.rows) > 1:
        at = dice.below(len(operand.rows) - 1)
        operand.rows[at] = operand.rows[at + 1] + dice.below(2)
    if fault == 3 and operand.form == LIST:
        operand.length = dice.below(operand.length + 1)
    if fault < 4 and operand.form == RUNS and operand.rows:
        return spoilt_runs(dice, operand)
    return operand


def random_operand(dice):
    length = dice.among([dice.below(70), dice.below(200), dice.below(600)])
    form = dice.among([ALL, NONE, WORDS, WORDS, WORDS, LIST, LIST, RUNS, RUNS])
    if form in (ALL, NONE):
        return flat_operand(dice, form, length)
    mask = dice.mask(length, dice.among([0, 1, 1, 4, 8, 15, 16]))
    if form == WORDS:
        return words_operand(dice, mask, dice.below(64))
    if form == LIST:
        return list_operand(dice, mask)
    return runs_operand(dice, dice.among([mask, dice.turning(length, 5), dice.turning(length, 150)]))
