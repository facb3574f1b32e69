#!/usr/bin/env python3
"""What the gate did, and where its time went: a table made from rt's own lines and from the gate's.

    scripts/gate_times.py LOG      LOG is what .ci/run wrote; or what rt ci wrote

A row for each crate, in the order of its first line: whether it was proved in this run or is kept from an earlier one, how many of its
must-fail edits were refused, and how often its program ran and wrote what it must. rt tells no seconds of a crate. Below the table stand the
seconds on the clock of each part of the gate, where the log tells them.
"""
import re
import sys

PROVED = re.compile(r"^rt: (\w+) proved$")
KEPT = re.compile(r"^rt: (\w+) is kept: ")
REFUSED = re.compile(r"^rt: must-fail (\w+)/[^:]+: refused, as it must be")
RAN = re.compile(r"^rt: (\w+) ran\b.*, and wrote what its file stdout has$")
PART = re.compile(r"^gate: (.+) took (\d+) s$")


def main():
    if len(sys.argv) != 2:
        sys.exit(__doc__)
    rows, parts = {}, []

    def row(name):
        return rows.setdefault(name, ["", 0, 0])

    with open(sys.argv[1], encoding="utf-8", errors="replace") as log:
        for line in log:
            line = line.rstrip("\n")
            if m := PROVED.match(line):
                row(m.group(1))[0] = row(m.group(1))[0] or "proved"
            elif m := KEPT.match(line):
                row(m.group(1))[0] = "kept"
            elif m := REFUSED.match(line):
                row(m.group(1))[1] += 1
            elif m := RAN.match(line):
                row(m.group(1))[2] += 1
            elif m := PART.match(line):
                parts.append((m.group(1), int(m.group(2))))
    print("| crate | proof | edits refused | runs |")
    print("|---|---|--:|--:|")
    for name, cells in rows.items():
        print(f"| {name} | {cells[0]} | {cells[1]} | {cells[2]} |")
    proved = sum(cells[0] == "proved" for cells in rows.values())
    kept = sum(cells[0] == "kept" for cells in rows.values())
    edits, runs = (sum(cells[i] for cells in rows.values()) for i in (1, 2))
    print(f"| all | {proved} proved, {kept} kept | {edits} | {runs} |")
    if parts:
        print("\nOn the clock: " + ", ".join(f"{name} {seconds} s" for name, seconds in parts) + f"; together {sum(s for _, s in parts)} s.")


main()
