#!/usr/bin/env python3
"""The quotients that crates/rules/proofs/OperandExamples.antt holds the density to, as that file has them: a line for each.

Each quotient is made of whole numbers alone: of all m * 2^e with m below 2^53, the one nearest to n / length, with m odd; and 0 at
length 0, as document 01 has it. Python's own division, which the processor makes, has to agree.
"""
from fractions import Fraction

LIMIT = 1_048_576
PAIRS = [
    (0, 0), (0, 1), (1, 1), (2, 8), (1, 3), (2, 3), (1, 10), (3, 6_200), (5, 6_200),
    (1, LIMIT), (LIMIT - 1, LIMIT), (349_525, LIMIT), (699_051, LIMIT),
    (1, LIMIT - 1), (LIMIT - 2, LIMIT - 1), (524_287, LIMIT - 1), (LIMIT, LIMIT),
]


def nearest(n, length):
    """m and e, m odd or both 0."""
    if n == 0:
        return 0, 0
    exact = Fraction(n, length)
    e = 0
    while exact / Fraction(2) ** e >= 2**53:
        e += 1
    while exact / Fraction(2) ** e < 2**52:
        e -= 1
    scaled = exact / Fraction(2) ** e
    m = scaled.numerator // scaled.denominator
    assert 2 * (scaled - m) != 1, "a tie"
    if 2 * (scaled - m) > 1:
        m += 1
    while m % 2 == 0:
        m //= 2
        e += 1
    return m, e


def exponent(e):
    return f"(pos {e})" if e >= 0 else f"(negsuc {-e - 1})"


for n, length in PAIRS:
    m, e = nearest(n, length)
    assert length == 0 or Fraction(n / length) == Fraction(m) * Fraction(2) ** e
    print(f"quotient {n} {length} {m} {exponent(e)}")
