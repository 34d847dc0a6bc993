#!/usr/bin/env python3
"""Grows a tree of many keys over some runs, and then runs many lines of eight workers on it at once, which read, write,
add, remove and scan, a third of them within a few hundred keys. Between rounds, and in some rounds beside the lines,
there are gleans and drops. All that is told is replayed by a serial model in order of the numbers: each reply, so that a
scan with a phantom is found; and dumps tell what the model has. Then it prints how long the runs took, how many
transactions committed, and how many lines were refused, and why.

Usage: tests/large_tree.py PROGRAM [KEYS [LINES [SEED]]], where PROGRAM is the built program, crates/foedus/out/foedus.
KEYS and LINES are 100,000 each if they are left out. The database is made in TMPDIR. Status: 0 where all is right, else
1, and the folder of the database stays.
"""
import collections
import os
import random
import shutil
import sys
import tempfile
import time

import random_runs
from random_runs import OUTCOME, State, Wrong, call, demand, rows, step

PART = 12_500  # keys that one run adds, all in an area of its own, which is one leaf before: more want more slots
AREA = 2**40
ROUND = 3_000  # lines of a round that changes the tree
ROUNDS = 5  # of a run: leaves that were split stay in memory until its end
HOT = 300  # so many keys are hot
OPTIONS = ["run", "--tries", "1000000", "--slots", "4096", "--snap", "65536"]


class Lines:
    """Lines of a script, with their operations, by worker and place in the round."""

    def __init__(self):
        self.texts, self.rounds = ["tree 2\n"], [collections.defaultdict(list)]

    def add(self, worker, ops):
        self.rounds[-1][worker].append(ops)
        self.texts.append(f"{worker} " + "; ".join(" ".join(map(str, op)) for op in ops) + "\n")

    def end_round(self):
        self.texts.append("join\n")
        self.rounds.append(collections.defaultdict(list))

    def keep(self, *lines):
        self.texts += [f"k {line}\n" for line in lines]


def replayed(lines, text, state, counts):
    """Replays what was told of a run, round by round, by number."""
    told = iter(text.splitlines())
    for number, of_round in enumerate(lines.rounds):
        commits = []
        line = next(told, "durable none")
        while not line.startswith("durable"):
            if not line.startswith("k."):
                came = OUTCOME.fullmatch(line)
                demand(came, "no outcome:", line)
                ops = of_round[int(came[1])][int(came[2])]
                if came[7]:
                    counts[came[7]] += 1
                else:
                    commits.append(((int(came[4]), int(came[5])), ops, came[3], came[6].split(), line))
            elif "full" in line:
                raise Wrong(line)
            elif " drop " in line:
                counts["pages dropped"] += int(line.split()[2])
                counts["pages kept"] += int(line.split()[4])
            line = next(told, "durable none")
        demand(line != "durable none", "no end of round", number)
        for _, ops, verdict, replies, line in sorted(commits):
            wanted = step(state, ops)
            demand((verdict, replies) == wanted[:2], line, "not", *wanted[:2])
            state.put(wanted[2])
        counts["committed"] += len(commits)
    demand(next(told, None) is None, "more lines than rounds have")


def run(folder, lines, state, counts):
    script = "".join(lines.texts)
    begun = time.monotonic()
    status, text = call(folder, *OPTIONS, script=script)
    seconds = time.monotonic() - begun
    demand(status == 0, "status", status, text[-200:])
    with open(f"{folder}/text", "w") as file:
        file.write(text)
    with open(f"{folder}/script", "w") as file:
        file.write(script)
    replayed(lines, text, state, counts)
    return seconds


def grow(draw, area, count):
    """Lines that add keys of an area in any order, four a line."""
    lines, keys = Lines(), [area * AREA + place for place in draw.sample(range(2**24), count)]
    for at in range(0, count, 4):
        lines.add(draw.randrange(8), [("w", 2, key, key % 1000) for key in keys[at:at + 4]])
    return lines


def ends_of(draw, keys):
    low = draw.choice(keys)
    return low, draw.choice([low + draw.randrange(2**14), 2**64 - 1])


def change(draw, keys, hot):
    """A line's operations."""
    if draw.random() < 0.33:
        keys = hot
    key, other, fresh = draw.choice(keys), draw.choice(keys), draw.choice(keys) + draw.randrange(1, 2**10)
    return draw.choice([
        [("r", 2, key), ("r", 2, fresh)],
        [("r", 2, key), ("r", 2, other), ("r", 2, fresh), ("r", 2, fresh + 1)],
        [("s", 2, *ends_of(draw, keys))],
        [("s", 2, *ends_of(draw, keys)), ("r", 2, other)],
        [("s", 2, *ends_of(draw, keys)), ("s", 2, *ends_of(draw, keys))],
        [("s", 2, key, key + 2**12), ("w", 2, key, draw.randrange(1000)), ("s", 2, key, key + 2**12)],
        [("a", 2, key, 1), ("r", 2, other)],
        [("d", 2, key), ("r", 2, key)],
        [("w", 2, fresh, 7), ("r", 2, key)] if draw.random() < 0.4 else [("r", 2, fresh), ("r", 2, key)],
        [("t", 2, key, draw.randrange(4))],
    ])


def work(draw, state, count):
    """A run's lines: rounds that change the tree, some with gleans and drops beside the lines, and quiet ones."""
    lines, keys = Lines(), list(state.keys[2])
    first = draw.randrange(len(keys) - HOT)
    hot = keys[first:first + HOT]
    for at in range(0, count, ROUND):
        if draw.random() < 0.5:
            lines.keep(*draw.choice([["glean", "drop"], ["drop", "glean", "drop"], ["epoch", "drop", "save"]]))
        for _ in range(min(ROUND, count - at)):
            lines.add(draw.randrange(8), change(draw, keys, hot))
        lines.end_round()
        lines.keep("glean")
        lines.end_round()
        lines.keep("glean", "drop")
        lines.end_round()
    lines.rounds.pop()  # the end right behind a join begins no round
    return lines


def check_dump(folder, state):
    status, text = call(folder, "dump")
    demand(status == 0 and text.split("\n", 1)[1] == rows(state), "a dump")


def all_runs(folder, draw, keys, count):
    state, counts, seconds = State({2: None}), collections.Counter(), [0, 0]
    for area in range(-(-keys // PART)):
        seconds[0] += run(folder, grow(draw, area, min(PART, keys - area * PART)), state, counts)
    demand(counts == {"committed": counts["committed"]}, "while it grew", dict(counts))
    check_dump(folder, state)
    print(f"a tree of {len(state.keys[2])} keys grew in {seconds[0]:.2f} s", flush=True)
    for at in range(0, count, ROUND * ROUNDS):
        seconds[1] += run(folder, work(draw, state, min(ROUND * ROUNDS, count - at)), state, counts)
        check_dump(folder, state)
    told = ", ".join(f"{name} {number}" for name, number in sorted(counts.items()))
    print(f"{count} lines in {seconds[1]:.2f} s: {told}; {len(state.keys[2])} keys: all right")


def main():
    if len(sys.argv) < 2:
        sys.exit(__doc__)
    random_runs.PROGRAM = os.path.abspath(sys.argv[1])
    keys, count, seed = [int(word) for word in sys.argv[2:]] + [100_000, 100_000, 1][len(sys.argv) - 2:]
    folder = tempfile.mkdtemp(prefix="foedus_tree_")
    try:
        all_runs(folder, random.Random(seed), keys, count)
    except Wrong as error:
        sys.exit(f"{error}; the run is in {folder}")
    shutil.rmtree(folder)


if __name__ == "__main__":
    if len(sys.argv) < 2 or {"-h", "--help"} & set(sys.argv):
        print(__doc__)
        sys.exit(len(sys.argv) < 2)
    main()
