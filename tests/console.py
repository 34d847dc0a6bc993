#!/usr/bin/env python3
"""Runs the sessions of a document to the letter, and tells where what the commands print isn't what it shows.

A session is what stands between lines ```console and ```. Of it a line that begins with `$ ` is a command, which goes
on in lines that begin with `> `; the lines behind it, up to the next command, are all that it writes to standard
output. The commands of all sessions go to one shell, which begins at the top of the repository; or, where a program is
given, in a folder that has it in place of the launcher, and the examples, tools and documents.
Usage: tests/console.py [--program PROGRAM] FILE [SECTION], where SECTION is the text of a heading `## SECTION` whose
part alone is run. Status: 0; 1 where something differs; 2 for other words.
"""
import argparse
import os
import shutil
import subprocess
import sys
import tempfile
from dataclasses import dataclass, field

TOP = os.path.dirname(os.path.dirname(os.path.abspath(__file__)))
MARK = "\x01"  # behind what a command prints


@dataclass
class Step:
    """A command, the number of its line, and the lines that it is to print."""

    command: str
    line: int
    shown: list = field(default_factory=list)


def steps_of(text, section):
    """The commands of a document, or of one section."""
    steps, is_inside, is_wanted = [], False, section is None
    for number, line in enumerate(text.splitlines(), 1):
        if is_inside and line == "```":
            is_inside = False
        elif is_inside:
            add_line(steps, number, line)
        elif line == "```console":
            is_inside = is_wanted
        elif line.startswith("## ") and section is not None:
            is_wanted = line == f"## {section}"
    return steps


def add_line(steps, number, line):
    if line.startswith("$ "):
        steps.append(Step(line[2:], number))
    elif not steps:
        sys.exit(f"line {number}: a session begins with a command")
    elif line.startswith("> ") and not steps[-1].shown:
        steps[-1].command += "\n" + line[2:]
    else:
        steps[-1].shown.append(line)


def make_top(folder, program):
    """A folder that looks like the top of the repository to a caller of the program."""
    os.makedirs(folder)
    os.symlink(os.path.abspath(program), f"{folder}/foedus")
    for part in ("examples", "tools", "docs"):
        shutil.copytree(f"{TOP}/{part}", f"{folder}/{part}")
    return folder


def printed_by(steps, program):
    """What each command prints, in one shell whose folders for a while are removed behind it. Its input is empty."""
    script = "".join(f"{step.command}\nprintf '{MARK}'\n" for step in steps)
    with tempfile.TemporaryDirectory() as room:
        with open(f"{room}/script", "w", encoding="utf-8") as file:
            file.write(script)
        shell = subprocess.run(
            ["sh", f"{room}/script"],
            cwd=TOP if program is None else make_top(f"{room}/top", program),
            env=dict(os.environ, TMPDIR=room),
            stdin=subprocess.DEVNULL,
            stdout=subprocess.PIPE,
            text=True,
            check=False,
        )
    return shell.stdout.split(MARK)


def main():
    parser = argparse.ArgumentParser(usage=__doc__, add_help=False)
    parser.add_argument("--program")
    parser.add_argument("file")
    parser.add_argument("section", nargs="?")
    words = parser.parse_args()
    with open(words.file, encoding="utf-8") as document:
        steps = steps_of(document.read(), words.section)
    if not steps:
        print(f"console: {words.file} has no session in {words.section or 'it'}")
        return 1
    printed, failed = printed_by(steps, words.program), 0
    for step, text in zip(steps, printed + [None] * len(steps)):
        shown = "".join(f"{line}\n" for line in step.shown)
        if text != shown:
            failed += 1
            print(f"console: {words.file}, line {step.line}: $ {step.command}\n-- shown:\n{shown}-- printed:\n{text}")
    print(f"console: {words.file}: {len(steps) - failed} of {len(steps)} commands print what is shown")
    return 1 if failed else 0


if __name__ == "__main__":
    sys.exit(main())
