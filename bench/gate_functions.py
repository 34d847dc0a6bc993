#!/usr/bin/env python3
"""Tells what each function costs the merge gate, in processor seconds, so that whoever comes next sees which are dear.

It looks on while the gate proves crates from nothing. A check writes a file for each of its modules, one after another,
and nearly each module is of one function: so it is seen when a file was written, and how many seconds the check had
used by then. Nothing is run twice.
Usage: bench/gate_functions.py --pid PID FOLDER         looks on until the process PID, a gate, has ended
       bench/gate_functions.py FOLDER                   looks on until it is interrupted
       bench/gate_functions.py --in DIR .. FOLDER       the gate's folders for temporary files, where TMPDIR is another
FOLDER gets a table for each crate, CRATE.txt and CRATE-tests.txt (with its tests), written anew as long as its check
runs: the functions that cost most, and what the kinds of modules cost. `Lts` is the function as steps: it grows with
its exits, and with what is owned at each; `Proof` is the proof, `Tie` that code and steps are the same.
A check with several jobs writes files side by side, so its seconds are of the neighbours, too: set RT_JOBS=1.
"""
import argparse
import bisect
import collections
import glob
import os
import re
import tempfile
import time

TICK = os.sysconf("SC_CLK_TCK")
LOOK = 10
MOST = 40
# What the modules of one function are called.
KINDS = """Answers Bounds Code Facts Given Goals Invariants Key Kinds Layout Loans Lts Met Mir Moves Named Owned Proof
Reads Regions Row Statement Symbol TheLink TheLinks Tie Told""".split()


def seconds_of(pid):
    with open(f"/proc/{pid}/stat", encoding="utf-8") as it:
        fields = it.read().rpartition(")")[2].split()
    return (int(fields[11]) + int(fields[12])) / TICK


def crate_of(pid):
    with open(f"/proc/{pid}/cmdline", encoding="utf-8") as it:
        words = it.read().split("\0")
    return words[words.index("--crate-name") + 1] + ("-tests" if "--test" in words else "")


def function_of(module):
    """The function, or the module itself, and its kind."""
    parts = re.sub(r"^(specs|proofs)\.(contracts\.)?", "", module).split(".")
    kind = parts[-1]
    while len(parts) > 1 and parts[-1] in KINDS:
        parts.pop()
    return ".".join(parts), kind


class Check:
    def __init__(self, name):
        # when it was looked at and the seconds by then; its files, and when each was written
        self.name, self.times, self.seconds, self.files = name, [], [], {}

    def look(self, folder, seconds):
        self.times.append(time.time())
        self.seconds.append(seconds)
        with os.scandir(folder) as found:
            for it in found:
                if it.name.endswith(".oantt") and not it.name.endswith(".decls.oantt") and it.name not in self.files:
                    self.files[it.name] = it.stat().st_mtime

    def used(self, at):
        """The seconds that it had used at this time: in proportion between two looks."""
        after = bisect.bisect_left(self.times, at)
        if after == len(self.times):
            return self.seconds[-1]
        from_time, from_seconds = min(self.files.values()), 0.0
        if after:
            from_time, from_seconds = self.times[after - 1], self.seconds[after - 1]
        share = (at - from_time) / max(self.times[after] - from_time, 0.001)
        return from_seconds + share * (self.seconds[after] - from_seconds)

    def table(self):
        functions, kinds, before = collections.Counter(), collections.Counter(), 0.0
        for name, at in sorted(self.files.items(), key=lambda it: it[1]):
            function, kind = function_of(re.sub(r"^Rattle-\w+-|\.oantt$", "", name))
            cost, before = self.used(at) - before, self.used(at)
            functions[function] += cost
            kinds[kind] += cost
        lines = [f"{self.name}: {self.seconds[-1]:.0f} seconds of {len(self.files)} modules"]
        lines.append(", ".join(f"{kind} {cost:.0f}" for kind, cost in kinds.most_common(8)))
        lines += [f"{cost:8.1f} {function}" for function, cost in functions.most_common(MOST)]
        return "\n".join(lines) + "\n"


def looked(checks, within, to):
    for folder in within:
        for at in glob.glob(f"{folder}/rattle-logic-built-locked-*"):
            pid = at.rpartition("locked-")[2].split("-")[0]
            try:
                seconds = seconds_of(pid)
                check = checks.setdefault(pid, Check(crate_of(pid)))
                check.look(at, seconds)
            except (OSError, ValueError, IndexError):
                # it has ended meanwhile, or hasn't begun
                continue
            if check.files:
                with open(f"{to}/{check.name}.txt", "w", encoding="utf-8") as it:
                    it.write(check.table())


def main():
    parser = argparse.ArgumentParser(description=__doc__, formatter_class=argparse.RawDescriptionHelpFormatter)
    parser.add_argument("--pid", type=int)
    parser.add_argument("--in", dest="within", nargs="+", default=[tempfile.gettempdir()])
    parser.add_argument("folder")
    asked = parser.parse_args()
    os.makedirs(asked.folder, exist_ok=True)
    checks = {}
    while not asked.pid or os.path.isdir(f"/proc/{asked.pid}"):
        looked(checks, asked.within, asked.folder)
        time.sleep(LOOK)


if __name__ == "__main__":
    main()
