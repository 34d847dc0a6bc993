#!/usr/bin/env python3
"""Plants the wrong bodies that the gate doesn't try, and tells which of them the prover refuses.

A crate's wrong bodies stand in crates/NAME/must-fail: the gate tries each `.edit` at every landing, and those of
`untried.md` never, since each costs a part of one more proof of its crate. This tries both, in a copy of the checkout.
Usage: bench/wrong_bodies.py NAME ..      crates, when their text changed
       bench/wrong_bodies.py --list       what stands in `untried.md`, by crate
Status: 0 where each is refused, else 1. It takes a proof of each crate, and of those below it that aren't built.
"""
import os
import re
import shutil
import subprocess
import sys
import tempfile

TOP = os.path.dirname(os.path.dirname(os.path.abspath(__file__)))


def untried(crate):
    """The wrong bodies of a crate's `untried.md`: of each its name, and the lines of an edit."""
    at = f"{TOP}/crates/{crate}/must-fail/untried.md"
    if not os.path.isfile(at):
        return {}
    with open(at, encoding="utf-8") as it:
        parts = re.split(r"^## (\w+)$", it.read(), flags=re.M)[1:]
    bodies = zip(parts[::2], parts[1::2])
    return {name: "".join(f"{line[4:]}\n" for line in text.split("\n") if line[:4] == "    ") for name, text in bodies}


def linked(one, other):
    # rt never writes into a file of a library that is built: it removes it first
    try:
        os.link(one, other)
    except OSError:
        shutil.copy2(one, other)


def copied(to):
    """Copies what a check reads, with the libraries that are built."""
    os.mkdir(f"{to}/.git")
    for name in ("crates.txt", "HANDLES"):
        shutil.copy(f"{TOP}/{name}", to)
    for crate in os.listdir(f"{TOP}/crates"):
        at, within = f"{TOP}/crates/{crate}", f"{to}/crates/{crate}"
        shutil.copytree(at, within, ignore=shutil.ignore_patterns("out"))
        if os.path.isdir(f"{at}/out/rlib"):
            shutil.copytree(f"{at}/out/rlib", f"{within}/out/rlib", copy_function=linked)


def tried(crates):
    with tempfile.TemporaryDirectory(prefix="wrong-bodies-") as room:
        copied(room)
        for crate in crates:
            for name, text in untried(crate).items():
                with open(f"{room}/crates/{crate}/must-fail/{name}.edit", "w", encoding="utf-8") as it:
                    it.write(text)
        return subprocess.run(["rt", "must-fail", *crates], cwd=room).returncode


def main():
    every = sorted(os.listdir(f"{TOP}/crates"))
    asked = sys.argv[1:]
    if asked == ["--list"]:
        for crate in every:
            for name in untried(crate):
                print(f"{crate}/{name}")
        return 0
    if not asked or not set(asked) <= set(every):
        sys.exit(__doc__)
    return tried(asked)


if __name__ == "__main__":
    if len(sys.argv) < 2 or {"-h", "--help"} & set(sys.argv):
        print(__doc__)
        sys.exit(len(sys.argv) < 2)
    sys.exit(main())
