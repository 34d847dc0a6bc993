#!/usr/bin/env python3
"""Measures what it costs to open a database: a run without a line over 4 values, over 400,000, and over none, which
makes the database, and a dump; by one program or by several in turn. Of each the middle and the least of so many goes
are told, in milliseconds, and of the programs behind the first one how many times as much that is. The machine's load
is told, too: a sync that has something to bring waits for all that others write to the same disk.

Usage: bench/measure_opening.py FOLDER TIMES PROGRAM.., where FOLDER is on the disk that is to be measured. TIMES is 60
for the figures.
"""
import os
import shutil
import statistics
import subprocess
import sys
import tempfile

from bench import row, timed

SMALL = "array 1 4\n"
ARRAYS, VALUES = 4, 100_000
LARGE = "".join(f"array {number} {VALUES}\n" for number in range(ARRAYS))
OPERATIONS = 16
ROOM = ["--slots", "4096", "--snap", "65536"]


def filled(number):
    """A script that sets all values of an array."""
    lines = []
    for first in range(0, VALUES, OPERATIONS):
        keys = range(first, min(first + OPERATIONS, VALUES))
        lines.append(f"{first // OPERATIONS % 8} {'; '.join(f'w {number} {key} {key + 1}' for key in keys)}\n")
    return LARGE + "".join(lines)


def call(program, folder, words, script=""):
    done = subprocess.run([program, *words], cwd=folder, input=script.encode(), stdout=subprocess.PIPE,
                          stderr=subprocess.PIPE, check=False)
    if done.returncode:
        sys.exit(f"{program} {' '.join(words)} ended with {done.returncode}: {done.stdout[-80:]} {done.stderr}")
    return done.stdout


def large_database(program, folder):
    for number in range(ARRAYS):
        call(program, folder, ["run", *ROOM, "--brief", "--tries", "1000000"], filled(number))
    call(program, folder, ["run", *ROOM], LARGE)
    kept = call(program, folder, ["dump"])
    if kept.count(b"\n") != 1 + ARRAYS * VALUES:
        sys.exit(f"a database of {kept.count(10) - 1} values")


# What is measured: the database, the words, and whether it is made anew each time.
MEASURED = {
    "a run over 4 values": ("small", ["run"], False),
    "a run over 400,000 values": ("large", ["run", *ROOM], False),
    "a run that makes the database": ("made", ["run"], True),
    "a dump of 4 values": ("small", ["dump"], False),
}
SCRIPTS = {"small": SMALL, "large": LARGE, "made": SMALL}


class Ways:
    """A program and its databases, each in a folder of its own."""

    def __init__(self, folder, program, number):
        self.program = program
        self.places = {name: f"{folder}/{name}_{number}" for name in SCRIPTS}
        for name, script in SCRIPTS.items():
            os.mkdir(self.places[name])
            with open(f"{self.places[name]}/script", "w", encoding="ascii") as file:
                file.write(script)
        call(program, self.places["small"], ["run"], f"{SMALL}0 w 1 2 7\n")
        large_database(program, self.places["large"])

    def go(self, what):
        """Milliseconds of one go."""
        name, words, is_made = MEASURED[what]
        place = self.places[name]
        if is_made:
            shutil.rmtree(f"{place}/vault", ignore_errors=True)
        return timed([self.program, *words], place, f"{place}/script", f"{place}/told")[0] * 1000


def main():
    if len(sys.argv) < 4:
        sys.exit(__doc__)
    folder, times, programs = sys.argv[1], int(sys.argv[2]), [os.path.abspath(word) for word in sys.argv[3:]]
    row("", *(f"{os.path.basename(program)}: middle, ms | least, ms" for program in programs), "load")
    row(*["---"] * (2 + 2 * len(programs)))
    with tempfile.TemporaryDirectory(dir=folder) as around:
        ways = [Ways(around, program, number) for number, program in enumerate(programs)]
        for what in MEASURED:
            taken = [[] for _ in ways]
            for _ in range(times):
                for own, way in zip(taken, ways):
                    own.append(way.go(what))
            cells = [told for own in taken for told in two_of(own, taken[0])]
            row(what, *cells, f"{os.getloadavg()[0]:.1f}")


def two_of(own, first):
    """The middle and the least of some goes, and how many times as much as the first program's."""
    found = []
    for at in (statistics.median, min):
        part = "" if own is first else f" ({at(own) / at(first):.2f})"
        found.append(f"{at(own):.2f}{part}")
    return found


if __name__ == "__main__":
    if len(sys.argv) < 2 or {"-h", "--help"} & set(sys.argv):
        print(__doc__)
        sys.exit(len(sys.argv) < 2)
    main()
