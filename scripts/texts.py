#!/usr/bin/env python3
"""What document 01's program writes, for any input: its lines, as the scripts that store inputs with their answers share it.

    scripts/texts.py FOLDER

writes crates/texts/data: a file with the name of each case that has its input, one with `.answer` after the name that has the text,
and `names`, which has a name on each line. An input is bytes of any kind, so nothing stands around it.
"""

import os
import re
import sys

from masks import Dice, WORDS
from pairs import composition, fit, route_of, COMPOSITION

LONGEST = 8192
INPUT = re.compile(rb"self=([01]{0,%d})\nrank=([01]{0,%d})\n" % (LONGEST, LONGEST))


def lines(refusal, route=0, count=0, rows=()):
    digits = "".join("1" if row else "0" for row in rows)
    return f"refusal={refusal}\nroute={route}\ncount={count}\nbits={digits}\n".encode()


def answer_to(text):
    """Two lines of digits and the end of input, or 13."""
    found = INPUT.fullmatch(text)
    if not found:
        return lines(13)
    masks = [[digit == ord("1") for digit in group] for group in found.groups()]
    if not fit(COMPOSITION, masks):
        return lines(7)
    rows = composition(*masks)
    return lines(0, route_of((WORDS, WORDS), *masks), sum(rows), rows)


def said(self_mask, rank_mask):
    """The input that says two masks."""
    self_digits, rank_digits = ("".join("1" if row else "0" for row in mask) for mask in (self_mask, rank_mask))
    return f"self={self_digits}\nrank={rank_digits}\n".encode()


# The cases.

DOCUMENT = b"self=01101011\nrank=10010\n"
LENGTHS = [1, 2, 63, 64, 65, 127, 128, 129]


def accepted():
    return {
        "document": DOCUMENT,
        "empty_masks": b"self=\nrank=\n",
        "one_row": b"self=1\nrank=1\n",
        "one_row_not_kept": b"self=1\nrank=0\n",
        "no_rank_rows": b"self=0000\nrank=\n",
    }


def unpaired():
    return {
        "rank_short": b"self=01101011\nrank=1001\n",
        "rank_long": b"self=01101011\nrank=100100\n",
        "rank_empty": b"self=01101011\nrank=\n",
        "self_empty": b"self=\nrank=1\n",
        "rank_as_long_as_self": b"self=01101011\nrank=10010101\n",
    }


def unlike_lines():
    """Lines that are missing, too many, or in another order."""
    return {
        "nothing": b"",
        "a_newline": b"\n",
        "a_nul": b"\0",
        "only_self": b"self=01101011\n",
        "only_rank": b"rank=10010\n",
        "only_the_key": b"self=",
        "keys_only": b"self=rank=",
        "no_last_newline": b"self=01101011\nrank=10010",
        "no_newline_between": b"self=01101011rank=10010\n",
        "no_newline": b"self=01101011rank=10010",
        "no_keys": b"01101011\n10010\n",
        "swapped": b"rank=10010\nself=01101011\n",
        "self_twice": b"self=01101011\nself=01101011\n",
        "rank_twice": b"rank=10010\nrank=10010\n",
        "self_twice_and_rank": b"self=01101011\nself=01101011\nrank=10010\n",
        "third_line": DOCUMENT + b"rank=10010\n",
        "third_line_cut": DOCUMENT + b"x",
        "empty_line_after": DOCUMENT + b"\n",
        "empty_line_before": b"\n" + DOCUMENT,
        "empty_line_between": b"self=01101011\n\nrank=10010\n",
        "said_twice": DOCUMENT + DOCUMENT,
    }


def unlike_bytes():
    """A byte that the grammar has nowhere, or not there."""
    return {
        "returns": b"self=01101011\r\nrank=10010\r\n",
        "return_first": b"self=01101011\r\nrank=10010\n",
        "return_last": b"self=01101011\nrank=10010\r\n",
        "returns_for_newlines": b"self=01101011\rrank=10010\r",
        "return_for_newline": b"self=01101011\nrank=10010\r",
        "blank_before": b" " + DOCUMENT,
        "blank_before_rank": b"self=01101011\n rank=10010\n",
        "blank_in_key": b"self =01101011\nrank=10010\n",
        "blank_after_key": b"self= 01101011\nrank=10010\n",
        "blank_inside": b"self=0110 1011\nrank=10010\n",
        "blank_after_self": b"self=01101011 \nrank=10010\n",
        "blank_after_rank": b"self=01101011\nrank=10010 \n",
        "blank_at_end": DOCUMENT + b" ",
        "tab_inside": b"self=0110\t1011\nrank=10010\n",
        "nul_before": b"\0" + DOCUMENT,
        "nul_inside": b"self=0110\x001011\nrank=10010\n",
        "nul_for_newline": b"self=01101011\0rank=10010\0",
        "nul_after_rank": b"self=01101011\nrank=10010\0\n",
        "nul_at_end": DOCUMENT + b"\0",
        "capitals": b"SELF=01101011\nRANK=10010\n",
        "capital_first": b"Self=01101011\nrank=10010\n",
        "capital_second": b"self=01101011\nRank=10010\n",
        "other_key": b"mask=01101011\nrank=10010\n",
        "no_equals": b"self:01101011\nrank:10010\n",
        "two_equals": b"self==01101011\nrank=10010\n",
        "sign": b"self=+01101011\nrank=10010\n",
        "comma": b"self=0,1,1\nrank=1,0\n",
        "digit_two": b"self=01101021\nrank=10010\n",
        "digit_two_in_rank": b"self=01101011\nrank=10020\n",
        "below_zero": b"self=0110101/\nrank=10010\n",
        "above_127": b"self=0110\xff011\nrank=10010\n",
        "above_127_digit": b"self=0110\xb1011\nrank=10010\n",
        "above_127_key": b"self\xbd01101011\nrank=10010\n",
        "above_127_before": b"\xef\xbb\xbf" + DOCUMENT,
        "above_127_after": DOCUMENT + b"\x80",
    }


def with_set(dice, length, count):
    """A mask of this length and this count."""
    rows = list(range(length))
    mask = [False] * length
    for _ in range(count):
        mask[rows.pop(dice.below(len(rows)))] = True
    return mask


def long_masks(dice):
    """The longest lines that are taken, and what is just too long for one, with its other line as long as it would have to be."""
    longest = said([True] * LONGEST, dice.mask(LONGEST, 8))
    half = with_set(dice, LONGEST, LONGEST // 2)
    return {
        "longest": longest,
        "longest_half": said(half, dice.mask(LONGEST // 2, 4)),
        "longest_few": said(with_set(dice, LONGEST, 300), dice.mask(300, 8)),
        "longest_unpaired": said(half, dice.mask(LONGEST, 8)),
        "self_of_8193": said(with_set(dice, LONGEST + 1, 5), [True, False, False, True, False]),
        "rank_of_8193": said([True] * LONGEST, dice.mask(LONGEST + 1, 8)),
        "both_of_8193": said([True] * (LONGEST + 1), dice.mask(LONGEST + 1, 8)),
        "a_newline_too_long": longest + b"\n",
        "a_digit_too_long": longest[:-1] + b"1\n",
        "longest_no_newline": longest[:-1],
        "longest_cut": longest[:-1] + b"1",
        "longest_twice": longest + longest,
        "digits_100000": bytes(ord("0") + dice.below(2) for _ in range(100000)),
    }


def of_route(dice, route, length):
    """Two masks that take the route, where there are such of this length."""
    if route == 1:
        return [True] * length, dice.mask(length, 8)
    if route == 2:
        return with_set(dice, length, length // 2), [True] * (length // 2)
    if route == 3:
        return with_set(dice, length, length // 2), [False] * (length // 2)
    if route == 6:
        return with_set(dice, length, length - 1), with_set(dice, length - 1, 1)
    if route == 9:
        return with_set(dice, length, length // 2), with_set(dice, length // 2, length // 4)
    return with_set(dice, length, 3), with_set(dice, 3, 2)


def routes(dice):
    """Each route that words take, at lengths around one word and two."""
    shortest = {1: 1, 2: 2, 3: 1, 6: 34, 9: 4, 10: 49}
    inputs = {}
    for route in shortest:
        for length in LENGTHS:
            if length >= shortest[route]:
                inputs[f"route_{route}_of_{length}"] = said(*of_route(dice, route, length))
    return inputs


def cases():
    dice = Dice(13)
    inputs = {}
    for some in (accepted(), unpaired(), unlike_lines(), unlike_bytes(), long_masks(dice), routes(dice)):
        assert not inputs.keys() & some.keys()
        inputs.update(some)
    assert len(inputs["longest"]) == 16396 and b"\nroute=1\n" in answer_to(inputs["longest"])
    for name, text in inputs.items():
        if name.startswith("route_"):
            assert answer_to(text).startswith(b"refusal=0\nroute=%s\n" % name.split("_")[1].encode()), name
    return inputs


def main():
    if len(sys.argv) != 2:
        sys.exit(__doc__)
    inputs = cases()
    files = {"names": "".join(name + "\n" for name in inputs).encode()}
    for name, text in inputs.items():
        files[name] = text
        files[name + ".answer"] = answer_to(text)
    for name, content in files.items():
        with open(os.path.join(sys.argv[1], name), "wb") as file:
            file.write(content)


if __name__ == "__main__":
    main()
