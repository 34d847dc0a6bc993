#!/usr/bin/env python3
"""Measures transactions over pages (page_commit), beside plain_txn.cpp, which makes the same atomic steps by hand.

Over arrays of 32, 1,000 and 131,072 values (heights 1 to 3), one worker and four in threads make transactions that read
two values and add to two others, each worker at keys of its own, and transactions of sixteen reads, all at the same
keys. The pages of all keys are in memory before. The C++ has its table at the place, modulo 128 bytes, where malloc
puts the proved program's, since that decides what four workers cost. Both programs run in turn, and of each the middle
and the best of its times are told: a transaction's nanoseconds, all workers together.
Usage: bench/measure_txn.py FOLDER. The proved program is made in FOLDER, from a copy of the crates as they stand here
and a crate of a few lines, and stays there (txn_tests, which drives the transactions, is for tests alone here; in the
copy it is a library): the first time all crates below are proved, which takes as long as for the
gate; after that only what has changed is.
"""
import os
import shutil
import statistics
import subprocess
import sys
import tempfile

HERE = os.path.dirname(os.path.abspath(__file__))
TOP = os.path.dirname(HERE)
COMPILE = ["g++", "-O2", "-std=c++17", "-pthread", "-o"]
TIMES = 15
NAME = "txn_timing"
MAIN = """\
//! Times transactions over pages; bench/measure_txn.py makes this crate.
#![tactic(auto)]

use std::io;
use std::time::Instant;
use txn_tests::{Call, Plan, Work, Workers};

fn main(rt: HostRuntime) -> io::Result<()> {
    let alloc = rt.alloc();
    for (size, slots) in [(32, 256), (1000, 256), (131072, 4096)] {
        for count in [1, 4] {
            for (name, work) in [("writes", Work::ReadTwoWriteTwo(0)), ("reads", Work::ReadMany(16))] {
                let Ok(mut workers) = Workers::new(alloc, Plan { size, slots, draw: 1 }, count) else {
                    return Ok(());
                };
                bring_all(&mut workers, u64::from(size));
                let start = Instant::now(&rt)?;
                workers.work_in_threads(&rt, work, 500_000, true);
                let took = start.elapsed(&rt)?;
                let mut done = 0u64;
                for worker in 0..4 {
                    done = done.saturating_add(workers.done(worker));
                }
                println!(rt; "{name}{size}x{count} {done} {}", took.as_nanos())?;
            }
        }
    }
    Ok(())
}

/// Brings the pages of all keys into memory that any worker uses.
fn bring_all(workers: &mut Workers, size: u64) {
    for k in 0..16u64 {
        bring_up(workers, k.wrapping_mul(size / 16));
    }
    let apart = (size / 16).clamp(2, 16);
    for k in 0..16u64 {
        bring_up(workers, (k / 4).wrapping_mul(apart).wrapping_add((k % 4).wrapping_mul(size / 4)));
    }
}

/// Adds to the value at a key, which brings its page into memory.
fn bring_up(workers: &mut Workers, key: u64) {
    workers.play(0, Call::Begin);
    workers.play(0, Call::Add(key, 1));
    workers.play(0, Call::Commit(true));
}
"""


def uses_of(crate):
    """The libraries that a crate uses, as crates.txt lists them."""
    with open(f"{TOP}/crates.txt", encoding="utf-8") as crates:
        for line in crates:
            name, _, uses = line.split("#")[0].partition(":")
            if name.split()[:1] == [crate]:
                return uses.strip()
    sys.exit(f"crates.txt has no {crate}")


def copy(folder, name):
    """Copies the crates into the folder, with txn_tests as a library and a crate of this name that stands on it."""
    os.makedirs(folder, exist_ok=True)
    for each in ("crates", "HANDLES", "crates.txt"):
        source, target = f"{TOP}/{each}", f"{folder}/{each}"
        if os.path.isdir(source):
            shutil.copytree(source, target, dirs_exist_ok=True, ignore=shutil.ignore_patterns("out", "must-fail"))
        else:
            shutil.copy(source, target)
    with open(f"{folder}/crates.txt", "a", encoding="utf-8") as crates:
        crates.write(f"{name}: {uses_of('txn_tests')} txn_tests # times of transactions\n")
    with open(f"{folder}/crates/txn_tests/src/lib.rt", encoding="utf-8") as root:
        text = root.read()
    for module in ("tests", "page_tests", "slot_tests", "drop_tests"):
        text = text.replace(f"#[cfg(test)]\nmod {module};\n", "")
        os.remove(f"{folder}/crates/txn_tests/src/{module}.rt")
        shutil.rmtree(f"{folder}/crates/txn_tests/proofs/{module}", ignore_errors=True)
    with open(f"{folder}/crates/txn_tests/src/lib.rt", "w", encoding="utf-8") as root:
        root.write(text.replace("#[cfg(test)]\n", ""))


def made(folder, name, text):
    """Proves and builds the program of this text in the folder."""
    os.makedirs(f"{folder}/crates/{name}/src", exist_ok=True)
    with open(f"{folder}/crates/{name}/src/main.rt", "w", encoding="utf-8") as program:
        program.write(text)
    subprocess.run(["rt", "run"], cwd=f"{folder}/crates/{name}", check=True)
    return f"{folder}/crates/{name}/out/{name}"


def make(folder):
    """Makes the proved program in the folder."""
    copy(folder, NAME)
    return made(folder, NAME, MAIN)


def times(program):
    """Of each thing that the program does how many transactions committed, and nanoseconds for each."""
    told = subprocess.run([program], check=True, capture_output=True, text=True).stdout
    rows = [line.split() for line in told.splitlines()]
    return {name: (int(done), int(nanos) / max(1, int(done))) for name, done, nanos in rows}


def row(name, own, hand):
    cells = [f"{statistics.median(own):.1f}", f"{min(own):.1f}", f"{statistics.median(hand):.1f}", f"{min(hand):.1f}"]
    ratio = statistics.median(own) / statistics.median(hand)
    print(f"| {name} | " + " | ".join(cells) + f" | {ratio:.2f} | {min(own) / min(hand):.2f} |")


def main():
    if len(sys.argv) != 2:
        sys.exit(__doc__)
    own = make(os.path.abspath(sys.argv[1]))
    with tempfile.TemporaryDirectory() as folder:
        hand = f"{folder}/plain_txn"
        subprocess.run(COMPILE + [hand, f"{HERE}/plain_txn.cpp"], check=True)
        runs = [(times(own), times(hand)) for _ in range(TIMES)]
    print("| what | foedus, middle | best | C++, middle | best | ratio of the middle | of the best |")
    print("|---|---|---|---|---|---|---|")
    for name in runs[0][0]:
        row(name, [mine[name][1] for mine, _ in runs], [theirs[name][1] for _, theirs in runs])


if __name__ == "__main__":
    if len(sys.argv) < 2 or {"-h", "--help"} & set(sys.argv):
        print(__doc__)
        sys.exit(len(sys.argv) < 2)
    main()
