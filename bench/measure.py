#!/usr/bin/env python3
"""Measures what a run of a long script takes: seconds, and peak memory: first that of a script of the same declarations
alone, then how much more, also as a multiple of the script's size. An array has two words in memory for each of its
values, whatever the script's length, and each worker with lines has sets of its own.

The scripts of long lines and of short ones have a quarter, a half and all of 64 MiB. In those of 16 writes a line and
of 16 reads a line each line is padded to 1,024 bytes by empty lines, which count for nothing; those of the shortest
lines have full rounds. Then come scripts of 25,000, 50,000 and 100,000 rounds without a line, and of one line each; and
of scans: of a tree with 4,096, 8,192 and 16,384 keys, as many scans from a key on, of 16 rows each but near the last
key. The databases are in a folder in memory, where a sync costs nothing: what it costs to make commits durable on a
device measure_log.py tells.
Usage: bench/measure.py PROGRAM, where PROGRAM is `./foedus` or the built program. It takes some minutes.
"""
import os
import sys
import tempfile
import time

LINES = 65536
BYTES = 1024
ROUNDS = 100_000
READ = "0 r 1 0\n"
MEMORY = "/dev/shm"


ARRAYS = "".join(f"array {storage} 131072\n" for storage in range(16))
SMALL = "array 1 4\n"
TREE = "tree 2\n"


def line(number, kind):
    """Sixteen operations, each at one of the last 256 values of another array: their pages have room in memory."""
    ops = []
    for place in range(16):
        key = 131072 - 256 + (number * 16 + place) * 2654435761 % 256
        ops.append(f"w {place} {key} {2**64 - 1 - key}" if kind == "writes" else f"r {place} {key}")
    text = f"{number % 8} " + "; ".join(ops)
    return text + "\n" * (BYTES - len(text))


def script(lines, kind):
    body = "".join(line(number, kind) for number in range(lines))
    return (ARRAYS + body)[: lines * BYTES]


def repeated(block, size):
    return (block * (size // len(block) + 1))[:size].rsplit("\n", 1)[0] + "\n"


def short_lines(size):
    return SMALL + repeated(READ * LINES + "join\n", size - len(SMALL))


def scans(keys):
    def key(number):
        return number * 2654435761 % 2**32

    writes = [f"w 2 {key(number)} {number}" for number in range(keys)]
    lines = ["0 " + "; ".join(writes[first : first + 4]) for first in range(0, keys, 4)]
    reads = [f"0 s 2 {key(number)} {2**64 - 1}" for number in range(keys)]
    return TREE + "\n".join(lines + ["join"] + reads) + "\n"


def run(program, path):
    with tempfile.TemporaryDirectory(dir=MEMORY) as folder, open(path, "rb") as source, open(os.devnull, "wb") as sink:
        start = time.monotonic()
        child = os.fork()
        if child == 0:
            os.chdir(folder)
            os.dup2(source.fileno(), 0)
            os.dup2(sink.fileno(), 1)
            os.execv(program, [program, "run", "--slots", "4096"])
        _, status, usage = os.wait4(child, 0)
        return os.waitstatus_to_exitcode(status), time.monotonic() - start, usage.ru_maxrss * 1024


def write_apart(path, make):
    """Writes a script from a process of its own. A program's peak counts what the process that starts it ever had, so
    this one never holds a script."""
    child = os.fork()
    if child == 0:
        with open(path, "w") as source:
            source.write(make())
        os._exit(0)
    os.waitpid(child, 0)


def run_made(program, make):
    """The status, the seconds and the peak memory of a run of a script, and the script's size."""
    with tempfile.NamedTemporaryFile(suffix=".txt") as source:
        write_apart(source.name, make)
        return *run(program, source.name), os.path.getsize(source.name)


def measure(program, name, declared, make):
    bare = run_made(program, lambda: declared)[2]
    status, seconds, peak, size = run_made(program, make)
    if status != 0:
        sys.exit(f"{name}: status {status}")
    more = peak - bare
    told = f"{bare / 1e6:4.0f} MB and {more / 1e6:4.0f} MB more, {more / size:4.1f} times the size"
    print(f"{name}, {size:9} bytes: {seconds:5.2f} s, {told}", flush=True)


def main():
    program = os.path.abspath(sys.argv[1])
    for lines in (LINES // 4, LINES // 2, LINES):
        for kind in ("writes", "reads"):
            measure(program, f"16 {kind} a line, {lines:6} lines", ARRAYS, lambda: script(lines, kind))
        measure(program, "shortest lines, in full rounds", SMALL, lambda: short_lines(lines * BYTES))
    for rounds in (ROUNDS // 4, ROUNDS // 2, ROUNDS):
        measure(program, f"{rounds:6} rounds without a line", "", lambda: "join\n" * rounds)
        measure(program, f"{rounds:6} rounds of a line", SMALL, lambda: SMALL + (READ + "join\n") * rounds)
    for keys in (LINES // 16, LINES // 8, LINES // 4):
        measure(program, f"{keys:6} scans of a tree with as many keys", TREE, lambda: scans(keys))


if __name__ == "__main__":
    if len(sys.argv) < 2 or {"-h", "--help"} & set(sys.argv):
        print(__doc__)
        sys.exit(len(sys.argv) < 2)
    main()
