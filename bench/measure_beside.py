#!/usr/bin/env python3
"""Measures what the maintenance thread's lines cost the workers beside whom they run: `foedus run --brief` over an array
of 32,768 values, four workers, each with additions to keys of its own.

The same lines are run with no line of the maintenance thread, with epochs, with an epoch and a save in turn, and, in
rounds, with a snapshot of the round before in each round but the first. Each run begins with a fresh database whose
files were made before it. All kinds run in turn, and of each the middle and the least of its seconds are told, with
commits a second.
Usage: bench/measure_beside.py PROGRAM [FOLDER], where PROGRAM is the built program and FOLDER lies on the disk that is
to be measured; without it, in memory.
"""
import os
import statistics
import subprocess
import sys
import tempfile
import time

from bench import row

WORKERS = 4
LINES = 60000
ROUNDS = 4
SAVES = 1000
TIMES = 7
VALUES = 32768
OPTIONS = ["run", "--brief", "--slots", "4096", "--snap", "8192", "--tries", "1000000"]


def lines(first, count):
    """Additions of each worker to keys of its own, spread over its part of the array."""
    part = VALUES // WORKERS
    for i in range(first, first + count):
        worker, place = i % WORKERS, (i // WORKERS) * 37
        keys = (worker * part + place % part, worker * part + (place + 1001) % part)
        yield f"{worker} a 1 {keys[0]} 1; a 1 {keys[1]} 1"


def in_one_round(beside):
    """All lines in one round, and these of the maintenance thread."""
    return "\n".join([f"array 1 {VALUES}", *lines(0, LINES), *beside]) + "\n"


def in_rounds(beside):
    """The lines in equal rounds, each but the first with these of the maintenance thread."""
    text, each = [f"array 1 {VALUES}"], LINES // ROUNDS
    for number in range(ROUNDS):
        text += ["join"] * (number > 0) + [*lines(number * each, each)] + [*beside] * (number > 0)
    return "\n".join(text) + "\n"


KINDS = {
    "none": in_one_round([]),
    "epochs": in_one_round(["k epoch"] * SAVES),
    "epochs and saves": in_one_round(["k epoch", "k save"] * (SAVES // 2)),
    f"none, {ROUNDS} rounds": in_rounds([]),
    f"a snapshot a round, {ROUNDS} rounds": in_rounds(["k glean"]),
}


def seconds_of(program, source, folder):
    """Runs a script on a fresh database, and returns its seconds; all lines have to commit."""
    with tempfile.TemporaryDirectory(dir=folder) as at:
        subprocess.run([program, "run"], input=f"array 1 {VALUES}\n", cwd=at, text=True, check=True, capture_output=True)
        start = time.perf_counter()
        ran = subprocess.run([program, *OPTIONS], input=source, cwd=at, text=True, check=True, capture_output=True)
        took = time.perf_counter() - start
        if f"commits {LINES}\n" not in ran.stdout:
            sys.exit(f"not all lines committed: {ran.stdout}")
        return took


def main(program, folder=None):
    program, times = os.path.abspath(program), {kind: [] for kind in KINDS}
    folder = folder or "/dev/shm"
    for _ in range(TIMES):
        for kind, source in KINDS.items():
            times[kind].append(seconds_of(program, source, folder))
    row("lines beside", "middle, s", "least, s", "commits a second")
    for kind, took in times.items():
        middle = statistics.median(took)
        row(kind, f"{middle:.3f}", f"{min(took):.3f}", f"{LINES / middle:,.0f}")


if __name__ == "__main__":
    if len(sys.argv) < 2 or {"-h", "--help"} & set(sys.argv):
        print(__doc__)
        sys.exit(len(sys.argv) < 2)
    main(*sys.argv[1:])
