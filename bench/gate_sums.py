#!/usr/bin/env python3
"""Tells from a table of bench/gate_seconds.py what the gate's parts come to, and what the first call has to prove.

Usage: bench/gate_sums.py TABLE [CORES]     where TABLE is what `bench/gate_seconds.py --to TABLE rt ci --anew` wrote
Minutes of processor time: proofs, tests and planted bugs; the proofs of the program and of all libraries that it stands
on; of these the longest row of crates that stand on one another, by crates.txt. No order of proofs ends before the
whole by the cores (4 if left out), and with one job for each crate none before that row.
"""
import os
import sys

TOP = os.path.dirname(os.path.dirname(os.path.abspath(__file__)))
PROGRAM = "foedus"


def seconds_of(lines):
    """Of each crate its seconds of proof, of tests, and of planted bugs with what they begin with."""
    rows = [[cell.strip() for cell in line.strip("|\n").split("|")] for line in lines if line.startswith("| ")]
    rows = [row for row in rows if row[0] not in ("crate", "all")]
    return {row[0]: (int(row[1]), int(row[2]), int(row[3]) + int(row[4].split()[0])) for row in rows}


def crates_below():
    """Of each crate those that it stands on, as crates.txt lists them."""
    with open(f"{TOP}/crates.txt", encoding="utf-8") as it:
        parts = [line.split("#")[0].split(":") for line in it if ":" in line.split("#")[0]]
    below = {name.strip(): words.split() for name, words in parts}
    return {name: [word for word in words if word in below] for name, words in below.items()}


def stands_on(crate, below):
    """The crate, and all that it stands on."""
    found, left = set(), [crate]
    while left:
        name = left.pop()
        left += [] if name in found else below[name]
        found.add(name)
    return found


def longest_row(crate, below, seconds, known):
    """The seconds of the longest row of crates that ends with this one, and its names."""
    if crate not in known:
        rows = [longest_row(name, below, seconds, known) for name in below[crate]]
        most, names = max(rows, default=(0, []))
        known[crate] = most + seconds.get(crate, (0,))[0], [*names, crate]
    return known[crate]


def main():
    if not 2 <= len(sys.argv) <= 3:
        sys.exit(__doc__)
    with open(sys.argv[1], encoding="utf-8") as table:
        seconds = seconds_of(table)
    cores, below = int((sys.argv[2:] or [4])[0]), crates_below()
    for place, what in enumerate(("proofs", "tests", "planted bugs")):
        print(f"{what}: {sum(row[place] for row in seconds.values()) / 60:.0f} minutes")
    needed = stands_on(PROGRAM, below)
    whole = sum(seconds.get(name, (0,))[0] for name in needed) / 60
    row, names = longest_row(PROGRAM, below, seconds, {})
    print(f"proofs of {PROGRAM} and the {len(needed) - 1} libraries below it: {whole:.0f} minutes")
    print(f"the longest row of them: {row / 60:.0f} minutes, {len(names)} crates: {' '.join(names)}")
    print(f"no order of them on {cores} cores ends before {whole / cores:.0f} minutes")


if __name__ == "__main__":
    if len(sys.argv) < 2 or {"-h", "--help"} & set(sys.argv):
        print(__doc__)
        sys.exit(len(sys.argv) < 2)
    main()
