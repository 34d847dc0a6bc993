#!/usr/bin/env python3
"""Measures how long the lines of workers take, one by one, while a drop of some 4,000 pages runs, and without one.

An engine has an array of 128,000 values, whose 4,000 leaves and the 64 pages above them were brought into memory, as
the snapshot has them. Workers in threads of their own make lines, each of which adds to two values of one leaf and is
tried again until it commits; behind each line the clock is read. The keeper drops all pages once meanwhile. The lines
that ended while the drop ran are told, beside those of as long a time without one, both over some fresh engines: how
many there were; how many a microsecond; the longest; how many were tried again, the longest of these, and the most
tries; how many took above 10, 100 and 1,000 microseconds. Either each worker's lines go to seven leaves of its own,
which were changed before and stay ("apart"), or all over the pages that are dropped ("there"). By four workers and by
three: where there are no more cores than workers, a drop takes its share of one from them.
Usage: bench/measure_waits.py FOLDER [TIMES]. The proved program is made in FOLDER, as bench/measure_txn.py makes its
own, and TIMES engines (25, if it is left out) are made for each row.
"""
import os
import statistics
import subprocess
import sys

from measure_txn import copy, made

NAME = "wait_timing"
BESIDE = """\
// Lines in threads, each of them timed, and a drop of the keeper beside them.
ghost use Rattle.std.specs.List.{AllByRecursion};
ghost use Rattle.std.specs.Thread.{IsSync};
ghost use Rattle.txn_tests.specs.Standing.{IsDropper, Stands};

use crate::plays::Work;
use crate::seating::drop_pages;
use crate::{Call, Line, Worker, Workers};
use engine_pages::{Engine, Pass};
use std::thread::{Threads, for_each_mut, join_mut, sleep, yield_now};
use std::time::{Clock, Duration};

/// Which lines workers make, and when.
#[derive(Clone, Copy)]
pub struct Lines {
    /// Of so many lines one goes to any leaf of the worker's part, the others to its first leaves.
    pub every: u64,
    /// Whether the pages are dropped.
    pub drops: bool,
    /// When the lines begin, the drop, and when the lines end, in the clock's nanoseconds.
    pub start: u64,
    pub drop: u64,
    pub until: u64,
}

/// When a drop began and ended, and how many pages it dropped and kept.
#[derive(Clone, Copy)]
pub struct Told {
    pub from: u64,
    pub to: u64,
    pub dropped: u32,
    pub kept: u32,
}

/// What the lines came to that ended between two times.
#[derive(Clone, Copy)]
pub struct Sum {
    pub count: u64,
    pub longest: u64,
    pub again: u64,
    pub longest_again: u64,
    pub most: u64,
    pub above_10: u64,
    pub above_100: u64,
    pub above_1000: u64,
}

const PART: u64 = 32_000;

impl Workers {
    /// Brings each leaf into memory as it was.
    pub fn bring_all(&mut self) {
        for leaf in 0..4_000u64 {
            self.play(0, Call::Begin);
            self.play(0, Call::Write(leaf.wrapping_mul(32), 5));
            self.play(0, Call::Abort);
        }
    }

    /// The workers make lines, each in a thread of its own, and the keeper may drop the pages meanwhile.
    pub fn time_lines<R: Threads + Clock + Sync>(&mut self, rt: &R, lines: Lines) -> Told {
        time_all(rt, &self.engine, &mut self.keeper, &mut self.workers, lines)
    }

    /// With the lines of a worker that ended between these times.
    pub fn sum(&self, worker: usize, from: u64, to: u64, before: Sum) -> Sum {
        if worker >= self.workers.len() {
            return before;
        }
        sum_of(&self.workers[worker].lines, from, to, before)
    }
}

/// The clock's nanoseconds, or 0.
pub fn nanos<R: Clock>(rt: &R) -> u64 {
    match rt.monotonic() {
        Ok(time) => time
            .as_secs()
            .wrapping_mul(1_000_000_000)
            .wrapping_add(u64::from(time.subsec_nanos())),
        Err(_) => 0,
    }
}

fn time_all<R: Threads + Clock + Sync>(
    rt: &R,
    engine: &Engine,
    keeper: &mut Pass,
    workers: &mut [Worker],
    lines: Lines,
) -> Told
    requires keeper { IsDropper engine.now keeper.old }
    requires workers { AllByRecursion (Stands engine.now) workers.old }
    ensures keeper { IsDropper engine.now keeper.new }
    ensures workers { AllByRecursion (Stands engine.now) workers.new }
{
    let mut told = Told {
        from: 0,
        to: 0,
        dropped: 0,
        kept: 0,
    };
    let mut there = ||
        requires { IsSync R.row × AllByRecursion (Stands engine.now) workers.now }
        ensures { AllByRecursion (Stands engine.entry.now) workers.exit.now }
    { run_all(rt, engine, workers, lines) };
    let mut here = ||
        requires { IsDropper engine.now keeper.now }
        ensures { IsDropper engine.entry.now keeper.exit.now }
    { drop_timed(rt, engine, keeper, lines, &mut told) };
    join_mut(rt, &mut there, &mut here);
    told
}

fn run_all<R: Threads + Clock + Sync>(rt: &R, engine: &Engine, workers: &mut [Worker], lines: Lines)
    requires { AllByRecursion (Stands engine.now) workers.old }
    ensures { AllByRecursion (Stands engine.now) workers.new }
{
    let count = workers.len();
    if count == 0 {
        return;
    }
    for_each_mut(
        rt,
        workers,
        count,
        &|i: usize, worker: &mut Worker|
            requires { Stands engine.now worker.now }
            ensures { Stands engine.entry.now worker.exit.now }
        { add_timed(rt, engine, worker, i as u64, lines) },
    );
}

fn drop_timed<R: Clock>(rt: &R, engine: &Engine, keeper: &mut Pass, lines: Lines, told: &mut Told)
    requires { IsDropper engine.now keeper.old }
    ensures { IsDropper engine.now keeper.new }
{
    if !lines.drops {
        return;
    }
    sleep(rt, Duration::from_nanos(lines.drop.saturating_sub(nanos(rt))));
    told.from = nanos(rt);
    let found = drop_pages(engine, keeper);
    told.to = nanos(rt);
    told.dropped = found.dropped;
    told.kept = found.kept;
}

// The key of a line.
fn key_of(every: u64, number: u64, line: u64) -> u64 {
    let first = number.wrapping_mul(PART);
    if every == 0 || line % every != 0 {
        return first.wrapping_add(line % 224);
    }
    let leaf = (line / every).wrapping_mul(7) % 1_000;
    first.wrapping_add(leaf.wrapping_mul(32).wrapping_add(line / every % 32))
}

fn add_timed<R: Clock>(rt: &R, engine: &Engine, worker: &mut Worker, number: u64, lines: Lines)
    requires { Stands engine.now worker.old }
    ensures { Stands engine.now worker.new }
{
    wait_for(rt, lines.start);
    let mut last = nanos(rt);
    for line in 0..10_000_000u64 {
        let tries = insist(engine, worker, key_of(lines.every, number, line));
        let now = nanos(rt);
        note(worker, line as usize, now, now.saturating_sub(last), tries);
        if now >= lines.until {
            return;
        }
        last = now;
    }
}

fn wait_for<R: Clock>(rt: &R, start: u64) {
    for _ in 0..10_000_000u64 {
        if nanos(rt) >= start {
            return;
        }
    }
}

fn note(worker: &mut Worker, line: usize, end: u64, took: u64, tries: u32)
    requires { (e : _) × Stands e worker.old }
    ensures { (e : _) → Stands e worker.old → Stands e worker.new }
{
    if let Some(place) = worker.lines.get_mut(line) {
        *place = Line { end, took, tries };
    }
}

fn insist(engine: &Engine, worker: &mut Worker, key: u64) -> u32
    requires { Stands engine.now worker.old }
    ensures { Stands engine.now worker.new }
{
    for tries in 0..1_000_000u32 {
        if worker.try_once(engine, Work::AddTwo(key)) {
            return tries.saturating_add(1);
        }
        yield_now();
    }
    1_000_000
}

fn sum_of(lines: &[Line], from: u64, to: u64, before: Sum) -> Sum {
    let mut sum = before;
    for i in 0..lines.len() {
        let line = lines[i];
        if line.end > from && line.end <= to {
            sum = with(sum, line);
        }
    }
    sum
}

fn with(sum: Sum, line: Line) -> Sum {
    let again = line.tries > 1;
    Sum {
        count: sum.count.wrapping_add(1),
        longest: sum.longest.max(line.took),
        again: sum.again.wrapping_add(u64::from(again)),
        longest_again: sum.longest_again.max(if again { line.took } else { 0 }),
        most: sum.most.max(u64::from(line.tries)),
        above_10: sum.above_10.wrapping_add(u64::from(line.took > 10_000)),
        above_100: sum.above_100.wrapping_add(u64::from(line.took > 100_000)),
        above_1000: sum.above_1000.wrapping_add(u64::from(line.took > 1_000_000)),
    }
}
"""
KEPT = """\
use Rattle.txn_tests.specs.Standing.{Stands}
use Rattle.txn_tests.proofs.beside.FUNCTION.Given as goal

abbrev pub invariant-loop-COUNTER : goal.invariant-loop-COUNTER
invariant-loop-COUNTER NAMES = Stands l.engine l.worker
"""
ANSWERS = """\
use Rattle.txn_tests.proofs.beside.add_timed.Goals as goal

pub returns-then-now-lines : goal.returns-then-now-lines
returns-then-now-lines g c = c.note.ensures c.args.engine.now c.insist-tries.ensures

pub loop-line-preserved : goal.loop-line-preserved
loop-line-preserved g c = c.note.ensures c.args.engine.now c.insist-tries.ensures
"""
LINE = """\

/// A line that ended at this time of the clock, took so long, in nanoseconds, and was tried so often.
#[derive(Clone, Copy, Drop)]
pub struct Line {
    pub end: u64,
    pub took: u64,
    pub tries: u32,
}
"""
SEAT = """\
            let mut worker = seat_next(alloc, &engine, &mut keeper, number, bounds.size);
            worker.lines = blank_lines(alloc)?;
            workers.push(worker)?;
"""
ROOM = """\
// Room for the lines of a worker, which is filled so that no line waits for memory.
fn blank_lines(alloc: Global) -> Result<Vec<Line>, Memory> {
    let mut lines = Vec::new(alloc);
    for _ in 0..80_000 {
        lines.push(Line {
            end: 0,
            took: 0,
            tries: 0,
        })?;
    }
    Ok(lines)
}

"""
MAIN = """\
//! Times lines beside a drop; bench/measure_waits.py makes this crate. Its words: how many engines, with a drop and
//! without; workers; of how many lines one goes to all leaves (0: none); for how many microseconds lines are made.
#![tactic(auto)]

use std::env;
use std::io;
use txn_tests::{Lines, Plan, Sum, Workers, nanos};

const NONE: Sum = Sum {
    count: 0,
    longest: 0,
    again: 0,
    longest_again: 0,
    most: 0,
    above_10: 0,
    above_100: 0,
    above_1000: 0,
};

const PLAN: Plan = Plan {
    size: 128_000,
    slots: 4096,
    draw: 1,
};

fn main(rt: HostRuntime) -> io::Result<()> {
    let Ok(words) = env::args(&rt)?.collect::<Vec<String>>(rt.alloc()) else {
        return Ok(());
    };
    let count = number_at(&words, 2, 4).clamp(1, 8) as u8;
    let every = number_at(&words, 3, 0);
    let window = number_at(&words, 4, 40_000).saturating_mul(1_000);
    let mut took = 2_000_000;
    for _ in 0..number_at(&words, 1, 1) {
        for drops in [true, false] {
            let Ok(mut workers) = Workers::new(rt.alloc(), PLAN, count) else {
                return Ok(());
            };
            workers.bring_all();
            let start = nanos(&rt).wrapping_add(3_000_000);
            let lines = Lines {
                every,
                drops,
                start,
                drop: start.wrapping_add(200_000),
                until: start.wrapping_add(window),
            };
            let told = workers.time_lines(&rt, lines);
            let from = if drops { told.from } else { lines.drop };
            let to = if drops { told.to } else { from.wrapping_add(took) };
            took = to.wrapping_sub(from);
            let mut sum = NONE;
            for worker in 0..8 {
                sum = workers.sum(worker, from, to.min(lines.until), sum);
            }
            let part = to.min(lines.until).saturating_sub(from);
            println!(rt; "{drops} {took} {part} {} {}", told.dropped, told.kept)?;
            println!(rt; "{} {} {} {} {}", sum.count, sum.longest, sum.again, sum.longest_again, sum.most)?;
            println!(rt; "{} {} {}", sum.above_10, sum.above_100, sum.above_1000)?;
        }
    }
    Ok(())
}

fn number_at(words: &[String], at: usize, otherwise: u64) -> u64 {
    match words.get(at) {
        Some(word) => word.parse::<u64>().unwrap_or(otherwise),
        None => otherwise,
    }
}
"""
KINDS = {0: ("apart", 40_000), 1: ("there", 12_000)}  # for so many microseconds


def patched(path, *pairs):
    with open(path, encoding="utf-8") as source:
        text = source.read()
    for old, new in pairs:
        if text.count(old) != 1:
            sys.exit(f"{path}: {old!r} stands there {text.count(old)} times")
        text = text.replace(old, new)
    with open(path, "w", encoding="utf-8") as target:
        target.write(text)


WORKER = (("    pub changes: Changes,\n}\n",
           "    pub changes: Changes,\n    /// Its lines.\n    pub lines: Vec<Line>,\n}\n" + LINE),)
SEATING = (("pub(crate) fn seat_next(engine: &Engine,", "pub(crate) fn seat_next(alloc: Global, engine: &Engine,"),
           ("        changes: Changes::new(),\n",
            "        changes: Changes::new(),\n        lines: Vec::new(alloc),\n"))
WORKERS = (("    engine: Engine,\n    keeper: Pass,\n    workers: Vec<Worker>,\n}",
            "    pub(crate) engine: Engine,\n    pub(crate) keeper: Pass,\n    pub(crate) workers: Vec<Worker>,\n}"),
           ("            workers.push(seat_next(&engine, &mut keeper, number, bounds.size))?;\n", SEAT),
           ("// The workers' keys lie 16 apart", ROOM + "// The workers' keys lie 16 apart"),
           ("Call, Phase, Plan, Work, Worker};", "Call, Line, Phase, Plan, Work, Worker};"))
PLAYS = (("    fn try_once(", "    pub(crate) fn try_once("),)
ROOT = (("mod hand;\n", "mod beside;\nmod hand;\n"),
        ("pub use hand::{Hand, Slot};\n",
         "pub use beside::{Lines, Sum, Told, nanos};\npub use hand::{Hand, Slot};\n"),
        ("pub use worker::{Phase, Plan, Worker};", "pub use worker::{Line, Phase, Plan, Worker};"))


def make(folder):
    """Makes the proved program in the folder."""
    copy(folder, NAME)
    source = f"{folder}/crates/txn_tests/src"
    for name, pairs in ("worker", WORKER), ("seating", SEATING), ("workers", WORKERS), ("plays", PLAYS), ("lib", ROOT):
        patched(f"{source}/{name}.rt", *pairs)
    with open(f"{source}/beside.rt", "w", encoding="utf-8") as target:
        target.write(BESIDE)
    for function, counter, names in ("add_timed", "line", "g l"), ("insist", "tries", "l"):
        proofs = f"{folder}/crates/txn_tests/proofs/beside/{function}"
        os.makedirs(proofs, exist_ok=True)
        with open(f"{proofs}/Invariants.antt", "w", encoding="utf-8") as target:
            target.write(KEPT.replace("FUNCTION", function).replace("COUNTER", counter).replace("NAMES", names))
    with open(f"{source}/../proofs/beside/add_timed/Answers.antt", "w", encoding="utf-8") as target:
        target.write(ANSWERS)
    return made(folder, NAME, MAIN)


def rows_of(program, *numbers):
    """With a drop and without, a row of numbers for each engine."""
    told = subprocess.run([program, *map(str, numbers)], check=True, capture_output=True, text=True).stdout
    words, rows = told.split(), {"true": [], "false": []}
    for at in range(0, len(words), 13):
        rows[words[at]].append([int(word) for word in words[at + 1:at + 13]])
    return rows


def rate(row):
    """Lines a microsecond."""
    return row[4] / max(1, row[1]) * 1000


def tell(name, rows):
    rates = []
    for drops in ("true", "false"):
        took, _, dropped, kept, lines, longest, again, longest_again, most, *above = zip(*rows[drops])
        rates.append(statistics.median(rate(each) for each in rows[drops]))
        cells = ["", ""]
        if drops == "true":
            cells = [f"{statistics.median(took) / 1e6:.2f}, {max(took) / 1e6:.2f}",
                     f"{statistics.median(dropped):.0f}, {statistics.median(kept):.0f}"]
        cells += [f"{sum(lines):,}", f"{rates[-1]:.3f}",
                  f"{statistics.median(longest) / 1e3:.1f}, {max(longest) / 1e3:.1f}",
                  f"{sum(again)}", f"{max(longest_again) / 1e3:.1f}", f"{max(most)}",
                  ", ".join(str(sum(each)) for each in above)]
        print(f"| {name}, {'a drop' if drops == 'true' else 'none'} | " + " | ".join(cells) + " |")
    print(f"| {name}, fewer with a drop | | | | {1 - rates[0] / rates[1]:.1%} | | | | | |", flush=True)


def main():
    if not 2 <= len(sys.argv) <= 3:
        sys.exit(__doc__)
    program = make(os.path.abspath(sys.argv[1]))
    times = int(sys.argv[2]) if len(sys.argv) > 2 else 25
    print("| workers, lines | a drop takes, middle and most, ms | drops and keeps | lines | lines a us, middle"
          " | longest line, middle and most, us | lines tried again | longest of these, us | most tries"
          " | lines above 10, 100, 1,000 us |")
    print("|---|---|---|---|---|---|---|---|---|---|")
    for workers in (4, 3):
        for every, (kind, window) in KINDS.items():
            tell(f"{workers}, {kind}", rows_of(program, times, workers, every, window))


if __name__ == "__main__":
    if len(sys.argv) < 2 or {"-h", "--help"} & set(sys.argv):
        print(__doc__)
        sys.exit(len(sys.argv) < 2)
    main()
