#!/usr/bin/env python3
"""Tells what each crate costs the merge gate, in processor seconds, so that whoever comes next sees what grew.

It looks on while the gate runs, which prints no times of its own: a few times a second it reads from /proc what each
process of the gate has used (user and system) and whose proof, tests or edits it is, so nothing is run twice.
Usage: bench/gate_seconds.py [--to FILE] rt ci [--anew | NAME ..]     runs that, and ends with its status
       bench/gate_seconds.py [--to FILE] --pid PID                    looks on at one that runs, from now on
       bench/gate_seconds.py --to FILE rt must-fail NAME              any command that checks crates will do
The table goes to FILE, written anew each minute, and else to standard error at the end; the command's own output stays
as it is. What `rt ci` takes over from earlier runs costs nothing and has no row; `rt ci --anew` proves all.
Columns: `begin` is the check that edits begin with and the one that shows it sound, `edits` are all edits together
and how many, `clock` the minutes from the begin to the crate's first and last process, `lines` how many lines of proof
the crate has for each line of its code. `other` is the gate itself, and the runs of tests and programs. A process that
ends between two looks is missed by at most half a second.
"""
import argparse
import glob
import os
import re
import subprocess
import sys
import time

TOP = os.path.dirname(os.path.dirname(os.path.abspath(__file__)))
TICK = os.sysconf("SC_CLK_TCK")
LOOK = 0.5
KINDS = ("proof", "tests", "begin", "edits")


def read(path):
    try:
        with open(path, "rb") as it:
            return it.read().decode(errors="replace")
    except OSError:
        return ""


def lines_of(crates):
    """How many lines of code and of proof these crates have."""
    counts = []
    for kind in ("src/**/*.rt", "proofs/**/*.antt"):
        files = [path for crate in crates for path in glob.glob(f"{TOP}/crates/{crate}/{kind}", recursive=True)]
        counts.append(sum(read(path).count("\n") for path in files))
    return counts


def share(crates):
    """Lines of proof for each line of code, as text."""
    code, proof = lines_of(crates)
    return f"{proof / code:.1f}" if code else "·"


def looked():
    """Of each process its parent, and the seconds that it has used."""
    found = {}
    for pid in filter(str.isdigit, os.listdir("/proc")):
        fields = read(f"/proc/{pid}/stat").rpartition(")")[2].split()
        if fields:
            found[int(pid)] = int(fields[1]), (int(fields[11]) + int(fields[12])) / TICK
    return found


def part_of(words, cwd):
    """The crate and the kind of check that a process with these words is, with the number of its edit; or None."""
    if "--crate-name" in words:
        name = words[words.index("--crate-name") + 1]
        kept = words[words.index("--incremental") + 1] if "--incremental" in words else ""
        if "--test" in words:
            return name, "tests", ""
        if kept.endswith("/seed"):
            return name, "begin", ""
        return (name, "edits", kept or cwd) if kept or "/rt-edit-" in cwd else (name, "proof", "")
    # what links a proved program or its tests
    within = re.search(r"/crates/([a-z0-9_]+)$", cwd)
    if within and words and words[0].endswith("/rattle-link"):
        return within[1], "tests" if any("_tests" in it for it in words) else "proof", ""
    return None


class Watch:
    def __init__(self, root):
        self.root, self.begin = root, time.monotonic()
        # by process: what it is, its seconds, and when it was seen first and last
        self.seen = {}

    def look(self):
        """Looks once at all processes below the root."""
        now, found = time.monotonic() - self.begin, looked()
        within = {self.root}
        for pid in sorted(found):
            way = [pid]
            while way[-1] in found and way[-1] not in within and len(way) < 64:
                way.append(found[way[-1]][0])
            within.update(way if way[-1] in within else ())
        for pid in within & found.keys():
            seconds, (part, before, first, _) = found[pid][1], self.seen.get(pid, (None, 0.0, now, now))
            if seconds < before:
                # another process has its number by now
                self.seen[pid, first] = self.seen.pop(pid)
                part, first = None, now
            part = part or self.part(pid, found[pid][0])
            self.seen[pid] = part, seconds, first, now

    def part(self, pid, parent):
        words = read(f"/proc/{pid}/cmdline").split("\0")
        try:
            cwd = os.readlink(f"/proc/{pid}/cwd")
        except OSError:
            cwd = ""
        return part_of(words, cwd) or self.seen.get(parent, (None,))[0]

    def table(self):
        rows, other = {}, 0.0
        for part, seconds, first, last in self.seen.values():
            if not part:
                other += seconds
                continue
            row = rows.setdefault(part[0], {**dict.fromkeys(KINDS, 0.0), "tried": set(), "from": first, "to": last})
            row[part[1]] += seconds
            row["tried"] |= {part[2]} if part[2] else set()
            row["from"], row["to"] = min(row["from"], first), max(row["to"], last)
        lines = ["| crate | proof | tests | begin | edits | sum | clock | lines |", "|---|---|---|---|---|---|---|---|"]
        whole = {name: sum(row[kind] for kind in KINDS) for name, row in rows.items()}
        for name in sorted(rows, key=lambda it: -whole[it]):
            row = rows[name]
            edits = f"{row['edits']:.0f} ({len(row['tried'])})"
            clock = f"{row['from'] / 60:.1f} to {row['to'] / 60:.1f}"
            checks = [f"{row[kind]:.0f}" for kind in ("proof", "tests", "begin")]
            lines.append("| " + " | ".join([name, *checks, edits, f"{whole[name]:.0f}", clock, share([name])]) + " |")
        all_of = [sum(row[kind] for row in rows.values()) for kind in KINDS]
        total = sum(all_of) + other
        lines.append("| all | " + " | ".join(f"{it:.0f}" for it in all_of) + f" | {total:.0f} | | {share(rows)} |")
        minutes = (time.monotonic() - self.begin) / 60
        told = f"{total / 60:.0f} processor minutes, {other:.0f} seconds of them other"
        lines.append(f"\n{told}; {minutes:.0f} minutes by the clock.")
        return "\n".join(lines) + "\n"


def written(watch, to):
    if to:
        with open(f"{to}.new", "w", encoding="utf-8") as it:
            it.write(watch.table())
        os.replace(f"{to}.new", to)


def main():
    parser = argparse.ArgumentParser(description=__doc__, formatter_class=argparse.RawDescriptionHelpFormatter)
    parser.add_argument("--to")
    parser.add_argument("--pid", type=int)
    parser.add_argument("command", nargs=argparse.REMAINDER)
    asked = parser.parse_args()
    if bool(asked.pid) == bool(asked.command):
        parser.error("either --pid PID or a command")
    run = subprocess.Popen(asked.command) if asked.command else None
    watch, looks = Watch(asked.pid or run.pid), 0
    while (run.poll() is None) if run else os.path.isdir(f"/proc/{asked.pid}"):
        watch.look()
        looks += 1
        if looks % int(60 / LOOK) == 0:
            written(watch, asked.to)
        time.sleep(LOOK)
    written(watch, asked.to)
    if not asked.to:
        sys.stderr.write(watch.table())
    return run.returncode if run else 0


if __name__ == "__main__":
    sys.exit(main())
