#!/usr/bin/env python3
"""Measures transactions over trees: plain_tree.cpp, which makes by hand the atomic steps of trees in memory; the
program with scripts over a tree; SQLite in memory by Python's sqlite3; and LMDB where Python has it. The same
operations at the same keys, one operation a transaction: reads of one random key that is there, writes of one
(updates), writes of keys that are not there (adds), and scans of the first 16 pairs from a random key on, in trees of
1,000 and 100,000 keys. The C++ begins a tree anew where as many keys were added as it had; the others let it grow.

The C++ runs them by 1, 2, 4 and 8 workers; and so do scripts, each worker's lines in a round. A script is run over a
copy of a database whose snapshot has the tree's keys: so its reads are of the snapshot's pages, and its writes put
copies of them in. As a run has 4,096 slots, it adds at most 12,000 keys; and in the large tree updates are of keys in
the lowest two fifths of its range, and adds in a twentieth. The seconds of runs of an empty script over the same are
taken away, the middle from the middle, the least from the least. What is left has all that a run does for a line: to
read it, to log it, and to print its outcome; reads and scans are run in brief, writes aren't, since in brief their log
entries are read again. SQLite and LMDB run one worker, each with Python's own time for a call, without files or syncs.
The middle and the best are told, in transactions a second. A last table has seconds of whole runs of `make`'s scripts.
Between two measurements is a pause, so that other work of a busy machine isn't kept waiting for long.
Usage: bench/measure_tree.py PROGRAM [FOLDER [LINES]], where PROGRAM is the built program. Without FOLDER in memory.
LINES are those of each measurement, 40,000 if left out, at most 65,536; of scans a fourth.
"""
import os
import shutil
import sqlite3
import statistics
import subprocess
import sys
import tempfile
import time

from bench import COMPILE, HERE, row, timed

try:
    import lmdb
except ImportError:
    lmdb = None

TIMES = 5
PAUSE = 0.7  # seconds
SNAP = "65536"  # snapshot pages, with those of the runs that put the keys in
SIZES = (1000, 100000)
WORKERS = (1, 2, 4, 8)
KINDS = ("reads", "updates", "scans", "adds")
OPTIONS = ["--tries", "1000000", "--slots", "4096", "--snap", SNAP]
PART = 12_500  # keys that one run puts in
MOST_ADDED = 12_000  # by one run
UPDATED, ADDED = 2**63 * 2 // 5, 2**63 // 20  # keys below are updated, and added, in the large tree
MAKE = ("7", "8", "65536")
LAST = 2**64 - 1


def mix(x):
    x = (x + 0x9E3779B97F4A7C15) & LAST
    x = ((x ^ (x >> 30)) * 0xBF58476D1CE4E5B9) & LAST
    x = ((x ^ (x >> 27)) * 0x94D049BB133111EB) & LAST
    return x ^ (x >> 31)


def key_of(number):
    """A random key of 63 bits, as plain_tree.cpp has it."""
    return mix(number) >> 1


def lines_of(kind, lines):
    return lines // 4 if kind == "scans" else lines


def drawn(kind, size, lines):
    """The keys of a measurement: those that aren't there yet for adds, else random ones of the tree's."""
    if kind == "adds":
        return [key_of(size + i) for i in range(lines)]
    keys, draw = [], mix(1000)
    for _ in range(lines):
        draw = mix(draw)
        keys.append(key_of(draw % size))
    return keys


def by_hand(plain, lines):
    """Of each measurement of the C++ the transactions a second: in the middle, and at best."""
    told = {}
    for _ in range(TIMES):
        time.sleep(PAUSE)
        text = subprocess.run([plain, str(lines)], check=True, capture_output=True, text=True).stdout
        for line in text.splitlines():
            name, done, nanos = line.split()[:3]
            told.setdefault(name, []).append(1e9 * int(done) / int(nanos))
    return {name: (statistics.median(runs), max(runs)) for name, runs in told.items()}


def fill_scripts(size):
    """Scripts that put the tree's keys in, four a line, each those of a part of its range; the last one makes them a
    snapshot."""
    keys = sorted(key_of(i) for i in range(size))
    for first in range(0, size, PART):
        part = sorted(keys[first : first + PART], key=mix)
        lines = (part[at : at + 4] for at in range(0, len(part), 4))
        yield "tree 2\n" + "".join("0 " + "; ".join(f"w 2 {key} 1" for key in line) + "\n" for line in lines)
    yield "tree 2\n"


def drawn_by_scripts(kind, size, lines):
    """The same as `drawn`, of keys for whose pages there are slots."""
    if kind == "adds":
        keys, number = [], size
        while len(keys) < min(lines, MOST_ADDED):
            if size == SIZES[0] or key_of(number) < ADDED:
                keys.append(key_of(number))
            number += 1
        return keys
    keys = drawn(kind, size, lines)
    if kind != "updates" or size == SIZES[0]:
        return keys
    low = [key_of(i) for i in range(size) if key_of(i) < UPDATED]
    return [low[key % len(low)] for key in keys]


def operation(kind, key):
    if kind == "reads":
        return f"r 2 {key}"
    return f"s 2 {key} {LAST}" if kind == "scans" else f"w 2 {key} 2"


def script(kind, size, workers, lines):
    keys = drawn_by_scripts(kind, size, lines)
    text = [f"{i % workers} {operation(kind, key)}" for i, key in enumerate(keys)]
    return "\n".join(["tree 2", *text]) + "\n", len(keys)


def command_of(program, brief):
    return [program, "run", *OPTIONS, *(["--brief"] if brief else [])]


def run_over(command, vault, source, folder):
    """Seconds of a run over a copy of a database."""
    with tempfile.TemporaryDirectory(dir=folder) as around:
        shutil.copytree(vault, f"{around}/vault")
        seconds, _ = timed(command, around, source, f"{around}/told")
        return seconds


def written(folder, name, text):
    with open(f"{folder}/{name}", "w", encoding="ascii") as file:
        file.write(text)
    return f"{folder}/{name}"


def without(runs, bare, count):
    """Transactions a second, in the middle and at best, of runs of so many, beside runs without any."""
    middle = statistics.median(runs) - statistics.median(bare)
    least = min(runs) - min(bare)
    return count / max(middle, 1e-9), count / max(least, 1e-9)


def one_script(program, base, kind, source, folder):
    """Seconds of runs of a script over the tree, and of an empty one in turn."""
    command = command_of(program, kind in ("reads", "scans"))
    empty = written(base, "empty", "tree 2\n")
    runs, bare = [], []
    time.sleep(PAUSE)
    for _ in range(TIMES):
        bare.append(run_over(command, f"{base}/vault", empty, folder))
        runs.append(run_over(command, f"{base}/vault", source, folder))
    return runs, bare


def by_scripts(program, folder, lines):
    """Of each measurement of the program the transactions a second: in the middle, and at best."""
    told = {}
    for size in SIZES:
        with tempfile.TemporaryDirectory(dir=folder) as base:
            subprocess.run([program, "dump"], cwd=base, check=True, capture_output=True)
            for text in fill_scripts(size):
                timed(command_of(program, True), base, written(base, "fill", text), f"{base}/told")
            for kind in KINDS:
                for workers in WORKERS:
                    text, count = script(kind, size, workers, lines_of(kind, lines))
                    source = written(base, "lines", text)
                    runs, bare = one_script(program, base, kind, source, folder)
                    told[f"{kind}{size}x{workers}"] = without(runs, bare, count)
    return told


class Sqlite:
    """A tree in SQLite, in memory; each statement is a transaction."""

    def __init__(self, size):
        self.base = sqlite3.connect(":memory:", isolation_level=None)
        self.base.execute("create table tree (key integer primary key, value integer)")
        self.base.execute("begin")
        self.base.executemany("insert into tree values (?, 1)", ((key_of(i),) for i in range(size)))
        self.base.execute("commit")

    def reads(self, key):
        return self.base.execute("select value from tree where key = ?", (key,)).fetchone()

    def updates(self, key):
        self.base.execute("update tree set value = 2 where key = ?", (key,))

    def adds(self, key):
        self.base.execute("insert into tree values (?, 2)", (key,))

    def scans(self, key):
        query = "select key, value from tree where key >= ? order by key limit 16"
        return self.base.execute(query, (key,)).fetchall()


class Lmdb:
    """A tree in LMDB, without syncs; each call is a transaction."""

    def __init__(self, size):
        self.folder = tempfile.TemporaryDirectory(dir="/dev/shm")
        self.base = lmdb.open(self.folder.name, map_size=2**30, sync=False, metasync=False, writemap=True)
        with self.base.begin(write=True) as txn:
            for i in range(size):
                txn.put(key_of(i).to_bytes(8, "big"), bytes(8))

    def reads(self, key):
        with self.base.begin() as txn:
            return txn.get(key.to_bytes(8, "big"))

    def updates(self, key):
        with self.base.begin(write=True) as txn:
            txn.put(key.to_bytes(8, "big"), bytes(8))

    adds = updates

    def scans(self, key):
        with self.base.begin() as txn:
            pairs = txn.cursor()
            there = pairs.set_range(key.to_bytes(8, "big"))
            rows = []
            while there and len(rows) < 16:
                rows.append(pairs.item())
                there = pairs.next()
            return rows


def by_library(library, lines):
    """Of each measurement of a library the transactions a second: in the middle, and at best."""
    told = {}
    for size in SIZES:
        for kind in KINDS:
            keys = drawn(kind, size, lines_of(kind, lines))
            time.sleep(PAUSE)
            runs = []
            for _ in range(TIMES):
                call = getattr(library(size), kind)
                start = time.monotonic()
                for key in keys:
                    call(key)
                runs.append(len(keys) / (time.monotonic() - start))
            told[f"{kind}{size}x1"] = statistics.median(runs), max(runs)
    return told


def cell(rates):
    return f"{rates[0]:,.0f}; {rates[1]:,.0f}" if rates else ""


def tell_made(program, folder):
    """Seconds of whole runs, in brief and with all lines, of a script that `make` makes."""
    row("`make " + " ".join(MAKE) + "`", "middle, s", "least, s")
    row("---", "---", "---")
    with tempfile.TemporaryDirectory(dir=folder) as base:
        text = subprocess.run([program, "make", *MAKE], check=True, capture_output=True, text=True).stdout
        source = written(base, "made", text)
        for name, brief in (("in brief", True), ("with all lines", False)):
            command = command_of(program, brief)
            seconds = []
            for _ in range(TIMES):
                with tempfile.TemporaryDirectory(dir=folder) as around:
                    subprocess.run([program, "dump"], cwd=around, check=True, capture_output=True)
                    seconds.append(timed(command, around, source, f"{around}/told")[0])
            row(name, f"{statistics.median(seconds):.3f}", f"{min(seconds):.3f}")


def main():
    program = os.path.abspath(sys.argv[1])
    folder = sys.argv[2] if len(sys.argv) > 2 else "/dev/shm"
    lines = int(sys.argv[3]) if len(sys.argv) > 3 else 40000
    with tempfile.TemporaryDirectory() as built:
        plain = f"{built}/plain_tree"
        subprocess.run(COMPILE[:-1] + ["-pthread", "-o", plain, f"{HERE}/plain_tree.cpp"], check=True)
        columns = [("C++", by_hand(plain, lines)), ("foedus", by_scripts(program, folder, lines))]
    columns.append(("SQLite", by_library(Sqlite, lines)))
    if lmdb:
        columns.append(("LMDB", by_library(Lmdb, lines)))
    row("transactions a second: middle; best", *(name for name, _ in columns))
    row("---", *("---" for _ in columns))
    for size in SIZES:
        for kind in KINDS:
            for workers in WORKERS:
                name = f"{kind}{size}x{workers}"
                row(f"{kind}, {size:,} keys, by {workers}", *(cell(told.get(name)) for _, told in columns))
    print()
    tell_made(program, folder)


if __name__ == "__main__":
    if len(sys.argv) < 2 or {"-h", "--help"} & set(sys.argv):
        print(__doc__)
        sys.exit(len(sys.argv) < 2)
    main()
