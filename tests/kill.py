#!/usr/bin/env python3
"""Kills the program again and again: while it makes the files of a database, and asks that the next call finds a fresh
one; and amid a run of many rounds, of which each third one makes a snapshot and drops pages, and asks that the database
then has a saved epoch that covers each one that was told durable, with exactly its commits, and that its newest
snapshot has exactly those of its epoch. The same of runs of several workers and of runs over a tree; and of one
database whose runs are killed one after another, each as it settles what the one before it left, or in its rounds.

Usage: tests/kill.py PROGRAM [TIMES], where PROGRAM is the built program, crates/foedus/out/foedus. TIMES is 400 if it is
left out; the further kinds of runs are killed a quarter as often each.
"""
import os
import random
import signal
import subprocess
import sys
import tempfile
import time

FILES = 18
LONGEST_MAKING = 0.012  # seconds, somewhat more than the making takes
ROUNDS = 1000
LONGEST_RUN = 1.0  # seconds
KEPT = "k glean\nk drop\n"


def kill_within(begun, longest):
    time.sleep(random.random() * longest)
    begun.send_signal(signal.SIGKILL)
    begun.wait()


def call(program, folder, *words):
    done = subprocess.run([program, *words], cwd=folder, capture_output=True, text=True)
    return done.returncode, done.stdout


def try_making(program, folder):
    """Whether the program was killed before all files were there."""
    begun = subprocess.Popen([program, "dump"], cwd=folder, stdout=subprocess.DEVNULL, stderr=subprocess.DEVNULL)
    kill_within(begun, LONGEST_MAKING)
    vault = f"{folder}/vault"
    made = [name for name in os.listdir(vault) if "." not in name] if os.path.isdir(vault) else []
    answer = call(program, folder, "dump")
    if answer != (0, "epoch 0\n"):
        sys.exit(f"after {sorted(made)}: {answer}")
    return len(made) < FILES


# The declarations, what each round does besides, and what a dump tells as of an epoch that isn't 0.
KINDS = {
    "": ("array 1 4\n", "0 a 1 0 1\n", "1 0 {0}\n"),
    "of three workers, ": ("array 1 4\n", "0 a 1 0 1\n1 a 1 1 1\n7 a 1 3 1\n", "1 0 {0}\n1 1 {0}\n1 3 {0}\n"),
    "over a tree, ": ("array 1 4\ntree 2\n", "0 a 1 0 1\n1 a 2 9 1\n", "1 0 {0}\n2 9 {0}\n"),
}


def script(kind):
    """Rounds of which each adds 1 to some values: so each epoch has itself as these values, also behind other runs."""
    declared, lines, _ = KINDS[kind]
    rounds = [f"{lines}{KEPT if number % 3 == 0 else ''}join\n" for number in range(ROUNDS)]
    return declared + "".join(rounds)


def state(kind, epoch):
    """What is told of the state as of an epoch."""
    return f"epoch {epoch}\n" + (KINDS[kind][2].format(epoch) if epoch > 0 else "")


def kill_run(program, folder, kind, longest):
    """Kills a run, checks what is kept then, and answers its epoch."""
    with open(f"{folder}/script", "w") as source:
        source.write(script(kind))
    with open(f"{folder}/script") as source, open(f"{folder}/text", "w") as text:
        begun = subprocess.Popen([program, "run"], cwd=folder, stdin=source, stdout=text)
        kill_within(begun, longest)
    with open(f"{folder}/text") as text:
        told = [line for line in text.read().split("\n")[:-1] if line.startswith("durable")]
    durable = int(told[-1].split()[1]) if told else 0
    status, kept = call(program, folder, "dump")
    epoch = int(kept.split()[1]) if status == 0 else -1
    if kept != state(kind, epoch) or epoch < durable:
        sys.exit(f"{durable} was told durable, then: {status}, {kept!r}")
    snapshots = call(program, folder, "snaps")[1].splitlines()
    for newest in snapshots[-1:]:
        of = newest.split()[1]
        answer = call(program, folder, "snap", of)
        if answer != (0, state(kind, int(of))):
            sys.exit(f"the snapshot of epoch {of}, of {len(snapshots)}: {answer}")
    return epoch


def try_run(program, folder, kind=""):
    """Whether the program was killed before its last round."""
    return kill_run(program, folder, kind, LONGEST_RUN) < ROUNDS


def try_chain(program, folder, times):
    """How many of so many runs over one database were killed before their last rounds."""
    within, before = 0, 0
    for _ in range(times):
        longest = random.choice([0.010, 0.050, LONGEST_RUN])
        epoch = kill_run(program, folder, "", longest)
        if epoch < before:
            sys.exit(f"epoch {before} was kept, and then {epoch}")
        within += epoch < before + ROUNDS
        before = epoch
    return within


def main():
    program = os.path.abspath(sys.argv[1])
    times = int(sys.argv[2]) if len(sys.argv) > 2 else 400
    kinds = [("before all files were made", try_making, times), ("before its last round", try_run, times)]
    for kind in list(KINDS)[1:]:
        kinds.append((f"{kind}before its last round", lambda program, folder, kind=kind: try_run(program, folder, kind),
                      times // 4))
    for name, try_once, count in kinds:
        within = 0
        for _ in range(count):
            with tempfile.TemporaryDirectory() as folder:
                within += try_once(program, folder)
        print(f"{count} times killed, {within} of them {name}: each next dump was right", flush=True)
    with tempfile.TemporaryDirectory() as folder:
        within = try_chain(program, folder, times // 4)
    print(f"{times // 4} runs killed one after another over one database, {within} of them before their last rounds: each "
          "next dump was right")


if __name__ == "__main__":
    if len(sys.argv) < 2 or {"-h", "--help"} & set(sys.argv):
        print(__doc__)
        sys.exit(len(sys.argv) < 2)
    main()
