#!/usr/bin/env python3
"""Tells what a run needs of stack and of address space. The examples, and a run over a tree whose pages are dropped
behind snapshots, are run under one limit after another; under want of memory a call has to answer `memory`, status 8,
but one that wants stack is ended by a signal. Told is, of each, the greatest limit under which a run was ended so, and
the least one above it under which it did all. One go doesn't show the greatest, as threads meet otherwise in each.

Usage: bench/least_room.py PROGRAM [GOES], where each limit is tried so many times, 3 if it is left out.
"""
import os
import resource
import subprocess
import sys
import tempfile

TOP = os.path.dirname(os.path.dirname(os.path.abspath(__file__)))
EXAMPLES = ["inventory", "ledger", "prices", "queue", "transfers"]
KIB, MIB = 1 << 10, 1 << 20
# What is limited, the limit's name, and the limits that are tried.
LIMITS = [
    ("the stack of each thread (ulimit -s)", resource.RLIMIT_STACK, KIB, range(16, 641, 8)),
    ("address space (ulimit -v)", resource.RLIMIT_AS, MIB // 4, range(3 * 4, 25 * 4)),
]


def over_a_tree():
    """Rounds that split leaves of a tree, make snapshots, and drop pages."""
    rounds = []
    for number in range(6):
        keys = range(number * 100, number * 100 + 100)
        lines = [f"{key % 8} w 2 {key * 7919 % 100_000} {number + 1}" for key in keys]
        rounds.append("\n".join([*lines, "k glean", "k save", "k drop"]))
    return ("array 1 64\ntree 2\n" + "\njoin\n".join(rounds) + "\nk glean\nk save\nk drop\njoin\nk drop\n").encode()


def scripts():
    found = {}
    for name in EXAMPLES:
        with open(f"{TOP}/examples/{name}.txt", "rb") as file:
            found[name] = file.read()
    return {**found, "a tree with glean and drop": over_a_tree()}


def status_under(program, script, what, limit):
    """How a run over a new database ends: 0 and on its status, below 0 a signal."""
    def limited():
        resource.setrlimit(what, (limit, limit))

    with tempfile.TemporaryDirectory(dir="/dev/shm") as folder:
        return subprocess.run([program, "run", "--brief"], input=script, cwd=folder, stdout=subprocess.DEVNULL,
                              stderr=subprocess.DEVNULL, timeout=60, preexec_fn=limited, check=False).returncode


def try_limits(program, script, what, unit, limits, goes):
    """The greatest limit under which a run was ended by a signal, and the least above it under which all did all."""
    done = None
    for limit in reversed(limits):
        came = [status_under(program, script, what, limit * unit) for _ in range(goes)]
        if min(came) < 0:
            return limit * unit, done
        if max(came) == 0:
            done = limit * unit
    return None, done


def told(size):
    return "none" if size is None else f"{size // KIB} KiB"


def main():
    if len(sys.argv) < 2:
        sys.exit(__doc__)
    program, goes = os.path.abspath(sys.argv[1]), int(sys.argv[2]) if len(sys.argv) > 2 else 3
    for name, what, unit, limits in LIMITS:
        print(f"\n{name}, {limits[0] * unit // KIB} to {limits[-1] * unit // KIB} KiB\n")
        print("| a run | greatest limit with a signal | least above it that is enough |\n| --- | --- | --- |")
        for run, script in scripts().items():
            signalled, done = try_limits(program, script, what, unit, limits, goes)
            print(f"| {run} | {told(signalled)} | {told(done)} |", flush=True)


if __name__ == "__main__":
    if len(sys.argv) < 2 or {"-h", "--help"} & set(sys.argv):
        print(__doc__)
        sys.exit(len(sys.argv) < 2)
    main()
