#!/usr/bin/env python3
"""Counts the lines that end in `conflict` where eight workers add to one key, beside busy processes.

Each run has 65,536 lines over a fresh database in memory, with the tries that a run has of itself, or TRIES. Of each
run the seconds and the lines that were lost are told, and at the end how many were lost in all. The key's last value is that of
the lines that committed; else the script ends with 1, as it does where a line was lost.
Usage: tests/hot_key.py PROGRAM [RUNS [BUSY [TRIES]]], where PROGRAM is the built program; RUNS runs (100) are made
beside BUSY processes (8), which count without an end.
"""
import os
import subprocess
import sys
import tempfile
import time

LINES = 65536
WORKERS = 8


def lost_in(program, tries):
    """The seconds of a run, and how many of its lines were in conflict at each of their tries."""
    script = "array 1 1\n" + "".join(f"{line % WORKERS} a 1 0 1\n" for line in range(LINES))
    script += "join\n0 r 1 0\n"
    with tempfile.TemporaryDirectory(dir="/dev/shm" if os.path.isdir("/dev/shm") else None) as folder:
        begun = time.monotonic()
        command = [program, "run", "--tries", tries]
        done = subprocess.run(command, cwd=folder, input=script.encode(), capture_output=True, check=True)
        seconds = time.monotonic() - begun
    told = done.stdout.decode().split("\n")
    lost = sum(line.endswith(" conflict") for line in told)
    value = [line.split()[-1] for line in told if line.startswith("0.") and " ok " in line][-1]
    if value != str(LINES - lost):
        sys.exit(f"{lost} lines of {LINES} were lost, and the value is {value}")
    return seconds, lost


def main():
    program = os.path.abspath(sys.argv[1])
    words = sys.argv[2:]
    runs, busy, tries = words + ["100", "8", "1000"][len(words):]
    runs, busy = int(runs), int(busy)
    others = [subprocess.Popen([sys.executable, "-c", "while True: pass"]) for _ in range(busy)]
    try:
        came = []
        for number in range(1, runs + 1):
            seconds, lost = lost_in(program, tries)
            came.append((seconds, lost))
            print(f"run {number}: {seconds:.2f} s, {lost} lost, load {os.getloadavg()[0]:.0f}", flush=True)
    finally:
        for other in others:
            other.kill()
    lost = [count for _, count in came if count]
    print(f"{sum(lost)} of {runs * LINES} lines were lost, in {len(lost)} of {runs} runs")
    sys.exit(1 if lost else 0)


if __name__ == "__main__":
    if len(sys.argv) < 2 or {"-h", "--help"} & set(sys.argv):
        print(__doc__)
        sys.exit(len(sys.argv) < 2)
    main()
