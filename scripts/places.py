#!/usr/bin/env python3
"""Writes the table of places, 256 bytes by 8 ranks: FOLDER/src/table.rt, as the code has it, and FOLDER/specs/Places.antt, as antt has it.

    scripts/places.py FOLDER

It does not look for set bits: it takes each way to choose places from the eight, ascending, and enters them at the byte that has
the bits there, with 8 behind them.
"""
import itertools
import pathlib
import sys

NONE = 8

CODE = """\
// Written by scripts/places.py. A constant table of 2,048 entries, 256 bytes by 8 ranks: at a byte and a rank, the place of the byte's set bit of
// that rank, and 8 where there is none. A line has the entries of one byte, rank 0 rightmost. It is a match and no array, since an array that is
// constant is made anew in the memory of each call; of a match the compiler makes a table.
ghost use Rattle.std.specs.Prelude.{{◌≡◌, ◌<◌, get_or}};
ghost use Rattle.places.specs.Keys.{{NoneBelow}};
ghost use Rattle.places.specs.Places.{{places}};

// Past the table there is no entry, and the list gives 0 there. No byte is past it: this is never called.
fn no_other(byte: u32) -> u64
    requires {{ NoneBelow 256 byte }}
    ensures {{ result ≡ get_or places byte 0 }}
{{
    0
}}

// The eight entries of a byte: in byte r of the answer, the place of the set bit of rank r.
pub fn places_of(byte: u32) -> u64
    requires {{ byte < 256 }}
    ensures {{ result ≡ get_or places byte 0 }}
{{
    match byte {{
{lines}
        _ => no_other(byte),
    }}
}}
"""

LIST = """\
-- Written by scripts/places.py. The table as the code has it, a number for each byte: in byte r of the number the place of the byte's set bit of
-- rank r, and 8 where there is none. That it is so is shown in `proofs/TableLaw`.
-- Assumes nothing.
use Rattle.std.specs.Prelude.{{ℕ, List, [], ◌∷◌}}

abbrev pub places : List ℕ
places =
{lines}
    []
"""


def table():
    """The eight entries of each byte."""
    entries = {}
    for chosen in range(9):
        for places in itertools.combinations(range(8), chosen):
            entries[sum(2**place for place in places)] = [*places, *[NONE] * (8 - chosen)]
    return [entries[byte] for byte in range(256)]


def number(entries):
    return "0x" + "_".join(f"{place:02x}" for place in reversed(entries))


def main(folder):
    numbers = [number(entries) for entries in table()]
    arms = [f"        {byte} => {numbers[byte]}," for byte in range(256)]
    rows = ["    " + " ∷ ".join(numbers[at : at + 4]) + " ∷" for at in range(0, 256, 4)]
    for name, text, lines in ("src/table.rt", CODE, arms), ("specs/Places.antt", LIST, rows):
        file = pathlib.Path(folder, name)
        file.parent.mkdir(exist_ok=True)
        file.write_text(text.format(lines="\n".join(lines)), encoding="utf-8")


if __name__ == "__main__":
    main(sys.argv[1])
