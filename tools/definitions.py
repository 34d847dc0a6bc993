#!/usr/bin/env python3
"""Tells where definitions, clauses and functions of the crates stand, read from the sources themselves.

Usage: tools/definitions.py               of each crate the files of `specs/`, each with its first sentence
       tools/definitions.py CRATE ..      the same of these crates, with the definitions that each file has
       tools/definitions.py NAME ..       where a definition, a clause or a function stands, and what is said there
Status: 0; 1 where a word is neither a crate nor a name.
"""
import glob
import os
import re
import sys

TOP = os.path.dirname(os.path.dirname(os.path.abspath(__file__)))
DEFINED = re.compile(r"(?:\s*pub |\s+(?=(?:abbrev|unfoldable) pub )|)(?:abbrev|record|data|unfoldable|law) (?:pub )?"
                     r"([^\s:({]+)")
IN_CODE = re.compile(r"\s*pub (?:const |unsafe )*(?:fn|struct|enum|trait|type|const) (\w+)")
FIELD = re.compile(r"\s+pub ([\w-]+) :")
CLAUSE = re.compile(r"\s*(?:ensures|requires)?\s*(\w+) \{")


def crates():
    """The crates in the order of crates.txt, from the logic up to the program, with half a line on each."""
    with open(os.path.join(TOP, "crates.txt"), encoding="utf-8") as it:
        rows = [row.partition("#") for row in it if ":" in row.partition("#")[0]]
    return {words.partition(":")[0].strip(): about.strip() for words, _, about in rows}


def files_of(crate, folder, ending):
    """The files of one crate's folder, with their lines."""
    for path in sorted(glob.glob(os.path.join(TOP, "crates", crate, folder, "**", f"*.{ending}"), recursive=True)):
        with open(path, encoding="utf-8") as it:
            yield os.path.relpath(path, TOP), it.read().splitlines()


def said_above(lines, at):
    """The comment right above a line, or at the head of a file."""
    said = []
    while at > 0 and re.match(r"\s*(--|///|//!)", lines[at - 1]):
        at -= 1
        said.insert(0, lines[at].strip().lstrip("-/!").strip())
    return " ".join(said)


def head_of(lines):
    """What a file begins with."""
    end = next((at for at, line in enumerate(lines) if not line.startswith(("--", "//!"))), len(lines))
    return said_above(lines, end)


def tell_crate(crate, about, whole):
    """Prints a crate's files of specs/, and, where all is asked for, their definitions."""
    print(f"\n{crate}: {about}")
    for path, lines in files_of(crate, "specs", "antt"):
        name = path.partition("/specs/")[2][:-len(".antt")]
        if name == "Lib":
            continue
        print(f"  {name}: {head_of(lines)}")
        for at, line in enumerate(lines) if whole else ():
            found = DEFINED.match(line)
            if found:
                print(f"    {found[1]} ({at + 1}): {said_above(lines, at)}")


def tell_name(name):
    """Prints each place where a name is defined or is that of a clause, and answers whether there is one."""
    found = False
    for crate in crates():
        for folder, ending, kinds in (("specs", "antt", (DEFINED, FIELD)), ("src", "rt", (IN_CODE, CLAUSE))):
            for path, lines in files_of(crate, folder, ending):
                for at, line in enumerate(lines):
                    if any(match and match[1] == name for match in (kind.match(line) for kind in kinds)):
                        found = True
                        print(f"{path}:{at + 1}: {said_above(lines, at) or line.strip()}")
    return found


def main(words):
    """Tells of all crates, or of the words."""
    known = crates()
    if words[:1] in (["-h"], ["--help"]):
        print(__doc__.strip())
        return 0
    for crate in known if not words else ():
        tell_crate(crate, known[crate], False)
    lost = 0
    for word in words:
        if word in known:
            tell_crate(word, known[word], True)
        elif not tell_name(word):
            lost = 1
            print(f"definitions.py: {word} is no crate and no name of specs/ or src/", file=sys.stderr)
    return lost


if __name__ == "__main__":
    try:
        sys.exit(main(sys.argv[1:]))
    except BrokenPipeError:
        sys.exit(0)
