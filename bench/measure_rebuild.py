#!/usr/bin/env python3
"""Measures what it takes to load a tree by tools/load.py and to make its database anew by tools/rebuild: seconds by the
clock and of the processor, both with the program's; pages in all and those of the newest snapshot; and levels of the
tree. The keys are apart, as of a table whose keys are hashes.

Usage: bench/measure_rebuild.py PROGRAM [FOLDER [KEYS ..]], where FOLDER lies on the disk that is to be measured;
without it in memory. KEYS are 100,000 and 400,000 if they are left out.
"""
import os
import resource
import subprocess
import sys
import tempfile
import time

TOP = os.path.dirname(os.path.dirname(os.path.abspath(__file__)))
sys.path.insert(0, f"{TOP}/tools")
from vault_format import Vault  # noqa: E402


def used():
    children = resource.getrusage(resource.RUSAGE_CHILDREN)
    return children.ru_utime + children.ru_stime


def row(*cells):
    print(f"| {' | '.join(str(cell) for cell in cells)} |", flush=True)


def timed(what, folder, *words):
    begun, before = time.monotonic(), used()
    subprocess.run([sys.executable, *words], cwd=folder, check=True, stdout=subprocess.DEVNULL)
    took, own = time.monotonic() - begun, used() - before
    vault = Vault(f"{folder}/vault")
    newest = sum(vars(vault.kinds).values())
    row(what, f"{took:.1f}", f"{own:.1f}", f"{len(vault.pages):,}", f"{newest:,}", vault.levels[1])


def measure(program, folder, keys):
    with tempfile.TemporaryDirectory(dir=folder) as room:
        with open(f"{room}/dump", "w", encoding="ascii") as file:
            file.write("epoch 1\n")
            file.writelines(f"1 {key * 7919} {key}\n" for key in range(keys))
        timed(f"{keys:,} keys loaded", room, f"{TOP}/tools/load.py", "--declare", "tree 1", "--run", program, "dump")
        timed(f"{keys:,} keys rebuilt", room, f"{TOP}/tools/rebuild", "--yes", "--program", program)


def main():
    program = os.path.abspath(sys.argv[1])
    folder = sys.argv[2] if len(sys.argv) > 2 else "/dev/shm"
    row("", "seconds", "of the processor", "pages", "of the newest snapshot", "levels")
    row(*["---"] * 6)
    for keys in [int(word) for word in sys.argv[3:]] or [100_000, 400_000]:
        measure(program, folder, keys)
    print(f"load {os.getloadavg()[0]:.0f}")


if __name__ == "__main__":
    if len(sys.argv) < 2 or {"-h", "--help"} & set(sys.argv):
        print(__doc__)
        sys.exit(len(sys.argv) < 2)
    main()
