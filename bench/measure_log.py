#!/usr/bin/env python3
"""Measures what it takes to make commits durable: a run of 16,384 lines of two additions each to an array by one
worker, beside a plain C++ program that keeps the values in a row in memory, as the engine does, and does the same
writes and syncs in the same rhythm, but nothing of what threads would want.

Each run begins with a fresh database, whose files were made before it. Both programs have to print the same, and to
leave the same bytes in each file. They run in turn, and of each the least and the middle one of its times are told.
Usage: bench/measure_log.py PROGRAM [FOLDER], where PROGRAM is the built program, crates/foedus/out/foedus, and the
databases are made in FOLDER, on the device that is to be measured (here, if it is left out).
"""
import os
import statistics
import subprocess
import sys
import tempfile
import time

LINES = 16384
VALUES = 4096  # whose pages all have room in memory
TIMES = 11
COMPILE = ["g++", "-O2", "-std=c++17", "-o"]


def script():
    lines = [f"array 1 {VALUES}"]
    for number in range(LINES):
        first, second = number * 2654435761 % VALUES, number * 40503 % (VALUES - 1)
        lines.append(f"0 a 1 {first} 1; a 1 {second} 1")
    return "\n".join(lines) + "\n"


def contents(folder):
    def content(name):
        with open(f"{folder}/{name}", "rb") as file:
            return file.read()

    return {name: content(name) for name in os.listdir(folder)}


def run(program, command, place, text, folder):
    """Seconds that a command takes which runs in a place of the folder of a fresh database, and what it prints and
    leaves there."""
    with tempfile.TemporaryDirectory(dir=folder) as around:
        subprocess.run([program, "dump"], cwd=around, check=True, stdout=subprocess.DEVNULL)
        start = time.monotonic()
        done = subprocess.run(command, input=text, capture_output=True, cwd=f"{around}/{place}", check=False)
        seconds = time.monotonic() - start
        if done.returncode != 0:
            sys.exit(f"{command[0]} ended with {done.returncode}: {done.stdout[-200:]!r} {done.stderr[-200:]!r}")
        return seconds, (done.stdout, contents(f"{around}/vault"))


def measure(program, plain, text, folder):
    """The times of both programs."""
    times = [], []
    for _ in range(TIMES):
        seconds, ours = run(program, [program, "run"], ".", text, folder)
        times[0].append(seconds)
        seconds, others = run(program, [plain], "vault", text, folder)
        times[1].append(seconds)
        if ours != others:
            sys.exit("the programs print or leave something different")
    print(f"{LINES} lines, {len(ours[1]['bank0'])} bytes logged, each program {TIMES} times")
    return times


def main():
    program = os.path.abspath(sys.argv[1])
    folder = sys.argv[2] if len(sys.argv) > 2 else "."
    source = os.path.join(os.path.dirname(os.path.abspath(__file__)), "plain_log.cpp")
    with tempfile.TemporaryDirectory() as built:
        plain = f"{built}/plain_log"
        subprocess.run(COMPILE + [plain, source], check=True)
        times = measure(program, plain, script().encode(), folder)
    rows = [(min(each), statistics.median(each)) for each in times]
    rows.append((rows[0][0] / rows[1][0], rows[0][1] / rows[1][1]))
    for name, (least, middle) in zip(("foedus run, s", "plain C++, s", "ratio"), rows):
        print(f"{name:14} least {least:6.3f}, median {middle:6.3f}")


if __name__ == "__main__":
    if len(sys.argv) < 2 or {"-h", "--help"} & set(sys.argv):
        print(__doc__)
        sys.exit(len(sys.argv) < 2)
    main()
