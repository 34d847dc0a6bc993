#!/usr/bin/env python3
"""Measures rounds without a line of the maintenance thread by two programs, as one before a change and one behind it:
`foedus run --brief` over an array of 32,768 values, by four workers, each with additions to keys of its own.

The lines are run in one round, in rounds of 64 and of 8 lines, and there are rounds of one line and rounds without any.
Each run begins with a fresh database whose files were made before it, by the same program. Both programs have to tell
the same. They run in turn, so that whatever else the machine does hits both alike, and of each the middle and the least
of its seconds are told, by the clock and of the processor. Then the instructions of a round are counted, by valgrind,
which no other work changes: those of many rounds less those of half as many.
Usage: bench/measure_against.py BEFORE PROGRAM [FOLDER [TIMES]], where both are built programs and FOLDER lies on the
disk that is to be measured; without it, in memory. Each runs TIMES times, 15 if it is left out; where it is 0, the
instructions alone are counted.
"""
import os
import re
import statistics
import subprocess
import sys
import tempfile

from bench import row, timed

WORKERS = 4
VALUES = 32768
OPTIONS = ["run", "--brief", "--slots", "4096", "--tries", "1000000"]


def lines(count):
    """Additions of each worker to keys of its own, spread over its part of the array."""
    part = VALUES // WORKERS
    for i in range(count):
        worker, place = i % WORKERS, (i // WORKERS) * 37
        keys = (worker * part + place % part, worker * part + (place + 1001) % part)
        yield f"{worker} a 1 {keys[0]} 1; a 1 {keys[1]} 1"


def in_rounds(count, each):
    """So many lines in rounds of so many."""
    text = [f"array 1 {VALUES}"]
    for i, line in enumerate(lines(count)):
        text += ["join"] * (i > 0 and i % each == 0) + [line]
    return "\n".join(text) + "\n"


KINDS = {
    "60,000 lines in one round": in_rounds(60000, 60000),
    "60,000 lines in four rounds": in_rounds(60000, 15000),
    "16,384 lines in rounds of 64": in_rounds(16384, 64),
    "8,192 lines in rounds of 8": in_rounds(8192, 8),
    "8,192 rounds of one line": in_rounds(8192, 1),
    "20,000 rounds without a line": f"array 1 {VALUES}\n" + "join\n" * 20000,
}


COUNTED = {  # lines and rounds
    "without a line": (0, 2000),
    "of one line": (2000, 2000),
    "of 8 lines by four workers": (8000, 1000),
    "of 64 lines by four workers": (16384, 256),
}


def counted(lines_in_all, rounds):
    """So many rounds with as many lines each."""
    return in_rounds(lines_in_all, lines_in_all // rounds) if lines_in_all else f"array 1 {VALUES}\n" + "join\n" * rounds


def seconds_of(program, source, folder):
    """Runs a script on a fresh database, and answers its seconds by the clock and of the processor, and what it told."""
    with tempfile.TemporaryDirectory(dir=folder) as at:
        subprocess.run([program, "run"], input=f"array 1 {VALUES}\n", cwd=at, text=True, check=True, capture_output=True)
        took = timed([program, *OPTIONS], at, source, f"{at}/told")
        with open(f"{at}/told", encoding="ascii") as told:
            return took, told.read()


def measure(programs, source, folder, times):
    """The seconds of both programs, which run in turn."""
    took = [[], []]
    for number in range(times):
        texts = []
        for which in (0, 1) if number % 2 == 0 else (1, 0):
            seconds, told = seconds_of(programs[which], source, folder)
            took[which].append(seconds)
            texts.append(told)
        if texts[0] != texts[1]:
            sys.exit(f"the programs tell something different: {texts}")
    return took


def cells(took, part):
    """The middle and the least of both programs, and how they stand to one another."""
    seconds = [[each[part] for each in of_program] for of_program in took]
    middles, leasts = [statistics.median(s) for s in seconds], [min(s) for s in seconds]
    shown = [f"{middle * 1000:.1f}, {least * 1000:.1f}" for middle, least in zip(middles, leasts)]
    return [*shown, f"{middles[1] / middles[0]:.2f}, {leasts[1] / leasts[0]:.2f}"]


def instructions(program, source, folder):
    """How many instructions a run takes."""
    with tempfile.TemporaryDirectory(dir=folder) as at:
        subprocess.run([program, "run"], input=f"array 1 {VALUES}\n", cwd=at, text=True, check=True, capture_output=True)
        command = ["valgrind", "--tool=callgrind", f"--callgrind-out-file={at}/counts", program, *OPTIONS]
        ran = subprocess.run(command, input=source, cwd=at, text=True, check=True, capture_output=True)
        return int(re.search(r"Collected : (\d+)", ran.stderr)[1])


def instructions_a_round(program, lines_in_all, rounds, folder):
    half = counted(lines_in_all // 2, rounds // 2)
    more = instructions(program, counted(lines_in_all, rounds), folder) - instructions(program, half, folder)
    return more / (rounds - rounds // 2)


def count(programs, folder):
    row("instructions of a round", "before", "now", "ratio")
    row(*["---"] * 4)
    for kind, (lines_in_all, rounds) in COUNTED.items():
        before, now = [instructions_a_round(program, lines_in_all, rounds, folder) for program in programs]
        row(kind, f"{before:,.0f}", f"{now:,.0f}", f"{now / before:.2f}")


def measure_all(programs, folder, times):
    row("middle and least, ms", "before", "now", "ratios", "processor, before", "now", "ratios")
    row(*["---"] * 7)
    with tempfile.TemporaryDirectory() as at:
        for kind, text in KINDS.items():
            with open(f"{at}/script", "w", encoding="ascii") as file:
                file.write(text)
            took = measure(programs, f"{at}/script", folder, times)
            row(kind, *cells(took, 0), *cells(took, 1))
    print()


def main(before, program, folder="/dev/shm", times="15"):
    programs = [os.path.abspath(before), os.path.abspath(program)]
    if int(times) > 0:
        measure_all(programs, folder, int(times))
    count(programs, folder)


if __name__ == "__main__":
    if len(sys.argv) < 2 or {"-h", "--help"} & set(sys.argv):
        print(__doc__)
        sys.exit(len(sys.argv) < 2)
    main(*sys.argv[1:])
