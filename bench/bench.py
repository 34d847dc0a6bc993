#!/usr/bin/env python3
"""Runs all measurements and prints a table of each: of scripts that `foedus make` makes and `foedus run --brief` runs,
beside a plain C++ program that does the same map operations, writes and syncs in the same rhythm; and then those of
measure_log.py, measure_glean.py, measure.py and dump.py.

Each run begins with a fresh database, whose files were made before it, in memory or in FOLDER. Both programs have to
print the same, and to leave as many bytes in each file: the engine's workers run at once, so numbers stand in other
places than behind one worker after another. They run in turn. Peak memory is what GNU time tells of one
more run, since a child of this program would begin with its own.
Usage: bench/bench.py PROGRAM [FOLDER], where PROGRAM is the built program, crates/foedus/out/foedus. It takes some
minutes; with `--made` as a third word the other measurements are left out.
"""
import os
import statistics
import subprocess
import sys
import tempfile
import time

HERE = os.path.dirname(os.path.abspath(__file__))
COMPILE = ["g++", "-O2", "-std=c++17", "-o"]
TIMES = 11
SIZES = (16384, 65536)


def lengths(folder):
    return {name: os.path.getsize(f"{folder}/{name}") for name in sorted(os.listdir(folder))}


def timed(command, place, source, sink):
    """Seconds that a command takes, and those of them in which it had a processor."""
    start = time.monotonic()
    child = os.fork()
    if child == 0:
        os.chdir(place)
        os.dup2(os.open(source, os.O_RDONLY), 0)
        os.dup2(os.open(sink, os.O_WRONLY | os.O_CREAT | os.O_TRUNC), 1)
        os.execv(command[0], command)
    _, status, usage = os.wait4(child, 0)
    seconds = time.monotonic() - start
    if os.waitstatus_to_exitcode(status) != 0:
        sys.exit(f"{' '.join(command)} ended with {status}")
    return seconds, usage.ru_utime + usage.ru_stime


def peak_of(program, script, folder):
    """The most memory in bytes that a run in brief takes."""
    with tempfile.TemporaryDirectory(dir=folder) as around:
        command = ["/usr/bin/time", "-f", "%M", "-o", f"{around}/peak", program, "run", "--brief"]
        with open(script, "rb") as source:
            subprocess.run(command, cwd=around, stdin=source, stdout=subprocess.DEVNULL, check=True)
        with open(f"{around}/peak", encoding="ascii") as told:
            return int(told.read()) * 1024


def over_fresh(program, command, place, source, folder):
    """The same over a fresh database, and what it prints and leaves there."""
    with tempfile.TemporaryDirectory(dir=folder) as around:
        subprocess.run([program, "dump"], cwd=around, check=True, stdout=subprocess.DEVNULL, stderr=subprocess.DEVNULL)
        seconds = timed(command, f"{around}/{place}", source, f"{around}/told")
        with open(f"{around}/told", "rb") as told:
            return seconds, (told.read(), lengths(f"{around}/vault"))


def row(name, *cells):
    print(f"| {name} | " + " | ".join(cells) + " |")


def timed_row(name, times, *cells):
    wall = [seconds for seconds, _ in times]
    busy = [seconds for _, seconds in times]
    row(name, f"{min(wall):.4f}", f"{statistics.median(wall):.4f}", f"{statistics.median(busy):.4f}", *cells)


def made(program, lines, script):
    """Tells how quickly a script is made, which is left in a file."""
    times = [timed([program, "make", "7", "8", str(lines)], "/", os.devnull, script) for _ in range(TIMES)]
    rate = os.path.getsize(script) / statistics.median(busy for _, busy in times) / 1e6
    timed_row(f"make 7 8 {lines}", times, f"{rate:.0f} MB/s of processor time")


def run_in_brief(program, plain, lines, script, folder):
    """Tells what a run in brief takes, beside the plain program."""
    ours, others = [], []
    for _ in range(TIMES):
        seconds, left = over_fresh(program, [program, "run", "--brief", "--tries", "1000000"], ".", script, folder)
        ours.append(seconds)
        seconds, same = over_fresh(program, [plain], "vault", script, folder)
        others.append(seconds)
        if left != same:
            sys.exit("the programs print or leave something different")
    peak = peak_of(program, script, folder) / os.path.getsize(script)
    timed_row(f"run --brief, {lines} lines", ours, f"peak memory {peak:.1f} times the script")
    timed_row("the plain program", others, "")
    row("ratio", *ratios(ours, others), "")


def ratios(ours, others):
    """Of the least seconds, of their medians, and of the medians of processor time."""
    wall, other_wall = [s for s, _ in ours], [s for s, _ in others]
    busy, other_busy = [s for _, s in ours], [s for _, s in others]
    return (
        f"{min(wall) / min(other_wall):.2f}",
        f"{statistics.median(wall) / statistics.median(other_wall):.2f}",
        f"{statistics.median(busy) / statistics.median(other_busy):.2f}",
    )


def main():
    program = os.path.abspath(sys.argv[1])
    folder = sys.argv[2] if len(sys.argv) > 2 else "/dev/shm"
    row("", "least, s", "median, s", "median of processor time, s", "")
    row("---", "---", "---", "---", "---")
    with tempfile.TemporaryDirectory() as built:
        plain, script = f"{built}/plain_brief", f"{built}/script"
        subprocess.run(COMPILE + [plain, f"{HERE}/plain_brief.cpp"], check=True)
        for lines in SIZES:
            made(program, lines, script)
            run_in_brief(program, plain, lines, script, folder)
    if "--made" in sys.argv:
        return
    others = ("measure_log.py", [folder]), ("measure_glean.py", [folder]), ("measure.py", []), ("dump.py", [])
    for name, words in others:
        print(f"\n{name}", flush=True)
        subprocess.run([sys.executable, f"{HERE}/{name}", program] + words, check=True)


if __name__ == "__main__":
    if len(sys.argv) < 2 or {"-h", "--help"} & set(sys.argv):
        print(__doc__)
        sys.exit(len(sys.argv) < 2)
    main()
