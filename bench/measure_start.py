#!/usr/bin/env python3
"""Measures what a run without a line takes over a small database: `foedus run` with two arrays, with the room for
snapshot pages that it has by itself and with `--snap 64`, of one program or of several in turn, beside
plain_rounds.cpp. Of each the middle and the least of fifteen runs are told, in seconds and of processor time.
Usage: bench/measure_start.py PROGRAM.., where each is a built program; in memory.
"""
import os
import statistics
import subprocess
import sys
import tempfile

from bench import COMPILE, HERE, over_fresh, row

TIMES = 15


def main():
    programs = [os.path.abspath(program) for program in sys.argv[1:]]
    row("", "middle, ms", "least, ms", "processor, middle, ms", "least, ms")
    row(*["---"] * 5)
    with tempfile.TemporaryDirectory() as built:
        plain, source = f"{built}/plain_rounds", f"{built}/script"
        subprocess.run(COMPILE[:-1] + ["-pthread", "-o", plain, f"{HERE}/plain_rounds.cpp"], check=True)
        with open(source, "w", encoding="ascii") as file:
            file.write("array 1 1024\narray 2 512\n")
        ways = [(program, [program, "run", *words], ".") for program in programs for words in ([], ["--snap", "64"])]
        ways.append((programs[0], [plain], "vault"))
        taken = [[] for _ in ways]
        for _ in range(TIMES):
            for times, (program, command, place) in zip(taken, ways):
                times.append(over_fresh(program, command, place, source, "/dev/shm")[0])
        for times, (_, command, _) in zip(taken, ways):
            cells = [at(time[i] * 1000 for time in times) for i in (0, 1) for at in (statistics.median, min)]
            row(" ".join(command), *(f"{cell:.2f}" for cell in cells))


if __name__ == "__main__":
    if len(sys.argv) < 2 or {"-h", "--help"} & set(sys.argv):
        print(__doc__)
        sys.exit(len(sys.argv) < 2)
    main()
