#!/usr/bin/env python3
"""Measures what a drop of some 4,000 pages costs the workers beside whom it runs: `foedus run` over an array whose
pages are all in memory as the newest snapshot has them, and a small one to whose values four workers add.

The same lines are run with no line of the maintenance thread, with an epoch, for which they get threads of their own
as beside any other, with a save, with a snapshot of the lines before, and with a drop; a drop is also run alone.
There are so many lines that they take about three times as long as a drop alone. Then 60,000 lines are run beside an
epoch, and beside some drops, one after another, of pages whose last values were written since the snapshot: each goes
over all of them and keeps them. These are run alone, too, so that it can be told how many commits fewer there are
while drops run, which has to be in less time than the lines. A round's seconds go from the last byte of the round
before to its first, since a round is written behind its end; of each kind the middle of some rounds of one run is
told. At last the workers add to values of the very pages that are dropped: how many lines come to no end in so many
tries, with nothing beside them and with a drop. Of trees it is told how many pages a drop takes out that came of one
leaf each. A drop gives its core away to workers that wait for one, so where there are no more cores than workers it
may last longer than the lines beside it: bench/measure_waits.py tells what it costs while it runs.
Usage: bench/measure_drops.py PROGRAM [FOLDER [WORKERS]], where PROGRAM is the built program and FOLDER lies on the disk
that is to be measured; without it, in memory. WORKERS is 1 to 4, and 4 if it is left out: where there are no more cores
than workers, a drop takes its share of one from them.
"""
import os
import statistics
import subprocess
import sys
import tempfile
import time

from bench import row

WORKERS = 4
LEAF = 32
LEAVES = 4000  # of the array that is dropped, below 63 pages and one more
OWN = 7  # leaves of the other array, for each worker
TIMES = 15
MANY_LINES, MANY_DROPS = 60000, 6
TRIES = (1, 2, 3, 4, 1000)
DROPS = 7  # for each of them; so the pages of all snapshots are let in
TREES, CHAIN_KEYS = 16, {1: 240, 1597: 384}  # of each tree, by how far each key is behind the one before
OPTIONS = ["run", "--slots", "4096", "--snap", "65536"]
MANY = ["--tries", "1000000"]
DECLARED = [f"array 1 {LEAVES * LEAF}", f"array 2 {WORKERS * OWN * LEAF}"]


def sixteen(verb, value, place=0):
    """Lines that touch each leaf of the large array at a place, sixteen at a time."""
    for first in range(0, LEAVES, 16):
        keys = [leaf * LEAF + place for leaf in range(first, min(first + 16, LEAVES))]
        yield f"{first // 16 % WORKERS} " + "; ".join([f"w 1 {key} {value}" for key in keys[:-1]]
                                                      + [f"{verb} 1 {keys[-1]} {value}"])


FILL = [*sixteen("w", 1)]
TOUCH = [*sixteen("t", 2**64 - 1)]  # each line ends short and leaves its pages in memory, as they were
WRITE = [*sixteen("w", 2, LEAF - 1)]


def additions(count):
    """Lines of each worker to values of its own leaves of the small array."""
    for i in range(count):
        worker, place = i % WORKERS, i // WORKERS
        yield f"{worker} a 2 {worker * OWN * LEAF + place % (OWN * LEAF)} 1"


def additions_there(count):
    """Lines of each worker to its own part of the large array."""
    part = LEAVES // WORKERS
    for i in range(count):
        worker, place = i % WORKERS, i // WORKERS
        yield f"{worker} a 1 {(worker * part + place * 7 % part) * LEAF + place % LEAF} 1"


def script(rounds):
    return ("\n".join(DECLARED + ["\njoin\n".join("\n".join(lines) for lines in rounds)]) + "\n").encode()


def run(program, folder, options, rounds):
    """Runs rounds of lines on a fresh database, and answers of each its seconds and what it told."""
    with tempfile.TemporaryDirectory(dir=folder) as at, open(f"{at}/script", "wb+") as source:
        source.write(script(rounds))
        source.seek(0)
        with subprocess.Popen([program, *OPTIONS, *options], cwd=at, stdin=source, stdout=subprocess.PIPE) as begun:
            chunks, start = [], time.perf_counter()
            while chunk := os.read(begun.stdout.fileno(), 1 << 20):  # nothing else is done here, lest it lags behind
                chunks.append((time.perf_counter(), chunk))
    told = timed(start, chunks)
    if begun.returncode or len(told) != len(rounds):
        sys.exit(f"status {begun.returncode}, {len(told)} of {len(rounds)} rounds")
    return told


def timed(since, chunks):
    """Of each round its seconds from the last byte of the round before to its first, and its lines."""
    told, lines, rest = [], [], b""
    for now, chunk in chunks:
        took = took if lines or rest else now - since
        *whole, rest = (rest + chunk).split(b"\n")
        for line in whole:
            lines.append(line.decode())
            if line.startswith(b"durable "):
                told.append((took, lines))
                since, took, lines = now, 0, []
    return told


def counts(lines):
    """How many pages a round's drop took out and kept."""
    found = [line.split() for line in lines if line.startswith("k.") and line.split()[1] == "drop"]
    return [int(number) for number in (found[0][2], found[0][4])] if found else [0, 0]


def middle(rounds):
    return statistics.median(took for took, _ in rounds)


def calibrated(program, folder):
    """How many lines the workers run in about three times the time of a drop alone."""
    probe = 20000
    told = run(program, folder, MANY, [FILL, ["k glean"], *[TOUCH, ["k drop"], [*additions(probe)]] * 5])
    alone, rate = middle(told[3::3]), probe / middle(told[4::3])
    return max(int(3 * alone * rate), 1000)


def kinds_of(lines, many):
    """What is run in a round, behind another one that makes its pages what they are to be."""
    return {
        "nothing": (TOUCH + ["k glean"], lines),
        "an epoch": (TOUCH, lines + ["k epoch"]),
        "a save": (TOUCH, lines + ["k save"]),
        "a snapshot": (TOUCH, lines + ["k glean"]),
        "a drop": (TOUCH + ["k glean"], lines + ["k drop"]),
        "a drop, alone": (TOUCH + ["k glean"], ["k drop"]),
        "an epoch, alone": ([], ["k epoch"]),
        f"an epoch, {len(many):,} lines": (WRITE, many + ["k epoch"]),
        f"{MANY_DROPS} drops that keep all": (["k epoch"], many + ["k drop"] * MANY_DROPS),
        f"{MANY_DROPS} such drops, alone": (["k epoch"], ["k drop"] * MANY_DROPS),
    }


def measure(program, folder):
    """Commits a second of the same lines, with nothing beside them, a snapshot, and drops."""
    kinds = kinds_of([*additions(calibrated(program, folder))], [*additions(MANY_LINES)])
    rounds = [FILL, ["k glean"]] + [part for _ in range(TIMES) for kind in kinds.values() for part in kind]
    told = run(program, folder, MANY, rounds + [["k epoch"]])
    row("beside", "middle, ms", "least, ms", "commits a second", "pages dropped", "kept")
    middles = []
    for number, (kind, (_, lines)) in enumerate(kinds.items()):
        of_kind = told[3 + 2 * number::2 * len(kinds)][:TIMES]
        middles.append(middle(of_kind))
        count = sum(line[0].isdigit() for line in lines)
        pages = [statistics.median(each) for each in zip(*[counts(text) for _, text in of_kind])]
        row(kind, f"{middles[-1] * 1000:.2f}", f"{min(took for took, _ in of_kind) * 1000:.2f}",
            f"{count / middles[-1]:,.0f}" if count else "-", *[f"{count:.0f}" for count in pages])
        dropped = int(pages[0]) if kind == "a drop, alone" else 0 if number == 0 else dropped
    tell_loss(middles, dropped)


def tell_loss(middles, dropped):
    _, epoch, _, _, drop, alone, epoch_alone, many_epoch, many_drops, many_alone = middles
    print(f"\npages dropped a second, alone: {dropped / (alone - epoch_alone):,.0f}")
    pairs = ("a drop is", epoch, drop, alone), ("drops that keep are", many_epoch, many_drops, many_alone)
    for name, least, beside, own in pairs:
        print(f"fewer commits while {name} run: {(beside - least) / (own - epoch_alone):.0%}")
    print()


def measure_tries(program, folder):
    """Lines in vain, by the tries that a line has, where workers add to values of the pages that are dropped."""
    lines = [*additions_there(20000)]
    print(f"of {DROPS} times {len(lines):,} lines, to the pages that are dropped:\n")
    row("tries a line", "in vain, nothing beside", "in vain, a drop beside", "pages dropped", "kept")
    for tries in TRIES:
        rounds = [FILL, ["k glean"]] + [TOUCH + ["k glean"], lines, TOUCH + ["k glean"], lines + ["k drop"]] * DROPS
        told = run(program, folder, ["--tries", str(tries)], rounds)
        vain = [sum(line.endswith(" conflict") for _, text in told[at::4] for line in text) for at in (3, 5)]
        pages = [sum(each) for each in zip(*[counts(text) for _, text in told[5::4]])]
        row(tries, *[str(count) for count in vain + pages])


def chains(step):
    """Lines of the workers that write keys of new trees, so many that some 60 pages come of the one leaf of each."""
    for line in range(CHAIN_KEYS[step] // 16):
        for tree in range(TREES):
            keys = [(16 * line + place) * step % 4099 for place in range(16)]
            yield f"{tree % WORKERS} " + "; ".join(f"w {tree} {key} 1" for key in keys)


def measure_chains(program, folder):
    """Pages of trees that are dropped a second, where all of them came of one leaf each."""
    global DECLARED
    DECLARED = [f"tree {tree}" for tree in range(TREES)]
    print(f"\na drop of what came of {TREES} leaves, alone:\n")
    row("keys", "middle, ms", "least, ms", "pages dropped", "kept", "pages dropped a second")
    for step, name in (1, "ascending"), (1597, "mixed"):
        rounds = [[*chains(step)], ["k glean"], ["k drop"], ["k epoch"]]
        told = [run(program, folder, MANY, rounds) for _ in range(TIMES)]
        drops, epoch = [of_run[2] for of_run in told], middle([of_run[3] for of_run in told])
        pages = [statistics.median(each) for each in zip(*[counts(text) for _, text in drops])]
        least = min(took for took, _ in drops)
        row(name, f"{middle(drops) * 1000:.2f}", f"{least * 1000:.2f}", *[f"{count:.0f}" for count in pages],
            f"{pages[0] / max(middle(drops) - epoch, 1e-9):,.0f}")


def main(program, folder="/dev/shm", workers="4"):
    global WORKERS
    program, WORKERS = os.path.abspath(program), int(workers)
    measure(program, folder)
    measure_tries(program, folder)
    measure_chains(program, folder)


if __name__ == "__main__":
    if len(sys.argv) < 2 or {"-h", "--help"} & set(sys.argv):
        print(__doc__)
        sys.exit(len(sys.argv) < 2)
    main(*sys.argv[1:])
