#!/usr/bin/env python3
"""Counts the paths of crates.txt below the program, and fails where they are more than so many.

One version of the toolchain makes a library's stamp by reading what stands below it over each *path* of crates.txt,
several times a library: with many paths minutes go by before a proof begins. So a line names only what the crate's own
files cite, and what can be cited through a crate above isn't named again.
Usage: tests/paths.py [--uncited] [FILE]     FILE is crates.txt of this checkout, if it is left out
       --uncited                             prints what lines name, though no file of their crate cites it, and ends
Status: 0 where the paths are as many as they may be, or fewer, else 1.
"""
import glob
import os
import re
import sys

TOP = os.path.dirname(os.path.dirname(os.path.abspath(__file__)))
PROGRAM = "foedus"

# What crates.txt had as this was written, rounded up: where it falls, this is to fall with it.
MOST = 84_000


def crates_below(file):
    """Of each crate those of the repository that its line names."""
    with open(file, encoding="utf-8") as it:
        parts = [line.split("#")[0].split(":") for line in it if ":" in line.split("#")[0]]
    below = {name.split()[0]: words.split() for name, words in parts}
    return {name: [word for word in words if word in below] for name, words in below.items()}


def paths_from(crate, below, known):
    """How many paths lead from a crate to itself and to what stands below it: what a walk without a memory visits."""
    if crate not in known:
        known[crate] = 1 + sum(paths_from(name, below, known) for name in below[crate])
    return known[crate]


def text_of(crate):
    """What the files of a crate say."""
    text = []
    for folder, kind in (("src", "rt"), ("specs", "antt"), ("proofs", "antt")):
        for path in glob.glob(f"{TOP}/crates/{crate}/{folder}/**/*.{kind}", recursive=True):
            with open(path, encoding="utf-8") as it:
                text.append(it.read())
    return "\n".join(text)


def uncited(below):
    """Pairs of a crate and one that its line names and none of its files cites."""
    for crate, names in below.items():
        text = text_of(crate)
        for name in names:
            if not re.search(rf"\bRattle\.{name}\b|(?<![\w.]){name}::|\buse {name}\b", text):
                yield crate, name


def main():
    words = sys.argv[1:]
    shows_uncited = words[:1] == ["--uncited"]
    files = words[shows_uncited:] or [f"{TOP}/crates.txt"]
    if len(files) > 1:
        sys.exit(__doc__)
    below = crates_below(files[0])
    if shows_uncited:
        for crate, name in uncited(below):
            print(crate, name)
        return 0
    known = {}
    count = paths_from(PROGRAM, below, known)
    most = max(known.values())
    print(f"{PROGRAM}: {count} paths, of {len(known)} crates; {most} are the most; {MOST} may be")
    return int(count > MOST)


if __name__ == "__main__":
    sys.exit(main())
