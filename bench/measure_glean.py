#!/usr/bin/env python3
"""Measures what a snapshot within a run takes, beside the run of the lines that it is made of, and what scans take.

Of snapshots: scripts of 4,096 and 16,384 lines, in a second round of which `k glean` stands or nothing. What the lines
take is the time of the script without it, less that of a script without lines; what the snapshot takes is what the time
with it is longer, with the sync of its pages and with the log files that its join then empties. Of the scripts one is
made by `foedus make`, so it changes a few pages many times; in the other each line writes keys of its own, four apart
or one behind the other, in an array and in a tree.

Of scans: a tree of so many keys, and as many lines of `s`, of 16 rows each but near the last key; what they take is
what the script takes longer for them.

Each run begins with a fresh database, whose files were made before it. Of each the middle one of its times is told.
Usage: bench/measure_glean.py PROGRAM [FOLDER], where PROGRAM is the built program, crates/foedus/out/foedus, and the
databases are made in FOLDER, on the device that is to be measured (here, if it is left out).
"""
import os
import re
import statistics
import subprocess
import sys
import tempfile
import time

SIZES = (4096, 16384)  # lines, and keys of a tree: more want more slots than there are
OPTIONS = ["--snap", "8192", "--slots", "4096", "--tries", "1000000"]
TIMES = 11


def keys(count, range_of):
    """So many keys below a power of 2, each once, in no order."""
    return [number * 2654435761 % range_of for number in range(count)]


def apart(lines):
    """A script whose lines write keys of their own, one of an array and one of a tree."""
    declared = "array 1 131072\ntree 2\n"
    at = [key * (SIZES[-1] // lines) for key in keys(lines, lines)]
    return declared, "".join(f"{number % 8} w 1 {key} {number}; w 2 {key} {number}\n" for number, key in enumerate(at))


def made(program, lines):
    """A script that the program makes, as its declarations and its lines."""
    text = subprocess.run([program, "make", "7", "8", str(lines)], capture_output=True, check=True, text=True).stdout
    declared = re.match("(?:(?:array|tree) .*\n)*", text).group()
    return declared, text[len(declared) :]


def written(count):
    """A script that puts so many keys into a tree, four a line."""
    ops = [f"w 2 {key} 1" for key in keys(count, 2**32)]
    lines = ["0 " + "; ".join(ops[first : first + 4]) for first in range(0, count, 4)]
    return "\n".join(["tree 2"] + lines + ["join"]) + "\n"


def scans(count):
    return "".join(f"0 s 2 {key} {2**64 - 1}\n" for key in keys(count, 2**32))


def timed(program, text, folder):
    """Seconds that a run of a script takes over a fresh database, and what it prints."""
    with tempfile.TemporaryDirectory(dir=folder) as around:
        subprocess.run([program, "dump"], cwd=around, check=True, stdout=subprocess.DEVNULL)
        with open(f"{around}/script", "w", encoding="ascii") as script:
            script.write(text)
        with open(f"{around}/script", "rb") as source, open(f"{around}/told", "wb") as told:
            start = time.monotonic()
            subprocess.run([program, "run", *OPTIONS], cwd=around, check=True, stdin=source, stdout=told)
            seconds = time.monotonic() - start
        with open(f"{around}/told", encoding="ascii") as told:
            return seconds, told.read()


def medians(program, texts, folder):
    """The middle times of runs of some scripts, which are run in turn, and what the last one prints."""
    times = [[] for _ in texts]
    for _ in range(TIMES):
        for each, text in zip(times, texts):
            seconds, told = timed(program, text, folder)
            each.append(seconds)
    return [statistics.median(each) for each in times], told


def row(*cells):
    print("| " + " | ".join(cells) + " |", flush=True)


def measure_snapshot(program, name, script, folder):
    declared, lines = script
    texts = [declared + "join\n", declared + lines + "join\n", declared + lines + "join\nk glean\n"]
    (bare, ran, gleaned), told = medians(program, texts, folder)
    pages = int(re.search("^k.0 snap 1 new (.*)$", told, re.MULTILINE).group(1))
    glean = gleaned - ran
    row(name, f"{ran - bare:.4f}", f"{glean:.4f}", f"{glean / (ran - bare):.2f}", f"{pages}", f"{pages / glean:,.0f}")


def measure_scans(program, count, folder):
    (wrote, scanned), _ = medians(program, [written(count), written(count) + scans(count)], folder)
    row(f"{count}", f"{scanned - wrote:.4f}", f"{(scanned - wrote) / count * 1e6:.2f}")
    return scanned - wrote


def main():
    program = os.path.abspath(sys.argv[1])
    folder = sys.argv[2] if len(sys.argv) > 2 else "."
    row("script", "running its lines, s", "its snapshot, s", "ratio", "pages", "pages a second")
    row(*["---"] * 6)
    for lines in SIZES:
        measure_snapshot(program, f"{lines} lines that were made", made(program, lines), folder)
        measure_snapshot(program, f"{lines} lines with keys of their own", apart(lines), folder)
    print()
    row("scans of a tree with as many keys", "s", "a scan, µs")
    row(*["---"] * 3)
    quarter, whole = [measure_scans(program, count, folder) for count in SIZES]
    print(f"growth from a quarter: {whole / quarter:.1f}")


if __name__ == "__main__":
    if len(sys.argv) < 2 or {"-h", "--help"} & set(sys.argv):
        print(__doc__)
        sys.exit(len(sys.argv) < 2)
    main()
