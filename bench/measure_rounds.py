#!/usr/bin/env python3
"""Measures rounds on threads: `foedus run` with scripts over arrays, beside plain_rounds.cpp, which has no pages, and
makes the same log lines, writes and syncs in the same rhythm.

Scripts of 65,536 lines by 1, 2, 4 and 8 workers: two additions a line to two arrays, as `foedus make` has them; the
same with each worker on keys of its own; transfers among 1,024 keys; additions to one key; sixteen reads, of 1,024
values and of 131,072; and rounds of 64 and of 8 lines, with fewer lines in all. A line is tried up to a million times;
where one was in conflict at each of them, the run is made again. Each run begins with a fresh database whose files
were made before it. Both programs print each line's outcome, and in a second row what a run in brief tells, for which
both read their files again. They have to tell as many commits, the same sum and the same epoch; by one worker each
word. They run in turn, and of each the middle and the least of its seconds are told.
Usage: bench/measure_rounds.py PROGRAM [FOLDER], where PROGRAM is the built program and FOLDER lies on the disk that is
to be measured; without it, in memory.
"""
import os
import statistics
import subprocess
import sys
import tempfile

from bench import COMPILE, HERE, over_fresh, row

LINES = 65536
DEEP = 131072  # values of an array below three pages, one over another
ROUND = 64
TIMES = 7
TRIES = "1000000"
RUNS = 20
WORKERS = (1, 2, 4, 8)


class Draws:
    """The numbers that `foedus make` draws."""

    def __init__(self, seed):
        self.x = seed

    def __call__(self):
        self.x = (1103515245 * self.x + 12345) % 2**31
        return self.x // 65536


def made(workers, i, draw):
    return f"a 1 {draw() % 1024} 1; a 2 {draw() % 512} 1"


def apart(workers, i, draw):
    worker, size = i % workers, 1024 // workers
    return f"a 1 {worker * size + draw() % size} 1; a 2 {worker * (size // 2) + draw() % (size // 2)} 1"


def transfer(workers, i, draw):
    come, go = draw() % 1024, draw() % 1023
    return f"t 1 {come} 1; a 1 {go if go < come else go + 1} 1"


def hot(workers, i, draw):
    return "a 1 0 1"


def reads(workers, i, draw):
    return "; ".join(f"r 1 {draw() % 1024}" for _ in range(16))


def deep(workers, i, draw):
    return "; ".join(f"r 1 {draw() * 4 % DEEP}" for _ in range(16))


def script(kind, workers, lines, every):
    draw, text = Draws(7), [f"array 1 {DEEP if kind is deep else 1024}", "array 2 512"]
    if kind is transfer:
        text += [f"0 " + "; ".join(f"w 1 {key + j} 1000000" for j in range(16)) for key in range(0, 1024, 16)] + ["join"]
    for i in range(lines):
        text.append(f"{i % workers} {kind(workers, i, draw)}")
        if every and (i + 1) % every == 0 and i + 1 < lines:
            text.append("join")
    return "\n".join(text) + "\n"


def measure(program, plain, brief, source, folder):
    ours, others = [], []
    for _ in range(TIMES):
        (seconds, _), (told, _) = over_fresh(program, [plain, *brief], "vault", source, folder)
        others.append(seconds)
        ours.append(own_seconds(program, brief, source, folder, told))
    return ours, others


def own_seconds(program, brief, source, folder, told):
    """Of the first run in which no line was in conflict at each of its tries: it tells what the plain program does."""
    for _ in range(RUNS):
        command = [program, "run", *brief, "--tries", TRIES]
        (seconds, _), (own, _) = over_fresh(program, command, ".", source, folder)
        if is_same(own, told):
            return seconds
    sys.exit("the programs tell something different")


def is_same(own, told):
    """The same, but for the numbers of commits and the replies where workers took turns otherwise."""
    if own == told:
        return True
    each, other = own.split(b"\n"), told.split(b"\n")
    several = any(line.startswith(b"1.0 ") for line in other)
    return several and [line.split(b":")[0] for line in each] == [line.split(b":")[0] for line in other]


def tell(name, ours, others):
    cells = [statistics.median(ours), min(ours), statistics.median(others), min(others)]
    ratio = cells[0] / cells[2], cells[1] / cells[3]
    row(name, *(f"{seconds:.4f}" for seconds in cells), *(f"{each:.2f}" for each in ratio))


def main():
    program = os.path.abspath(sys.argv[1])
    folder = sys.argv[2] if len(sys.argv) > 2 else "/dev/shm"
    row("", "foedus, middle, s", "least, s", "C++, middle, s", "least, s", "ratio of the middle", "of the least")
    row(*["---"] * 7)
    with tempfile.TemporaryDirectory() as built:
        plain, source = f"{built}/plain_rounds", f"{built}/script"
        subprocess.run(COMPILE[:-1] + ["-pthread", "-o", plain, f"{HERE}/plain_rounds.cpp"], check=True)
        kinds = [("two additions", made), ("apart", apart), ("transfers", transfer), ("one key", hot), ("16 reads", reads)]
        kinds += [("16 reads below three pages", deep)]
        cases = [(name, kind, LINES, 0) for name, kind in kinds]
        cases += [(f"rounds of {ROUND} lines", made, 4096, ROUND), ("rounds of 8 lines", made, 512, 8)]
        for name, kind, lines, every in cases:
            for workers in WORKERS:
                with open(source, "w", encoding="ascii") as file:
                    file.write(script(kind, workers, lines, every))
                for brief in ((), ("--brief",)):
                    told = measure(program, plain, brief, source, folder)
                    tell(", ".join([name, str(workers), *(word[2:] for word in brief)]), *told)


if __name__ == "__main__":
    if len(sys.argv) < 2 or {"-h", "--help"} & set(sys.argv):
        print(__doc__)
        sys.exit(len(sys.argv) < 2)
    main()
