#!/usr/bin/env python3
"""Makes a script that writes rows into a database, of what `foedus dump` printed or of CSV: so a dump can be loaded
into a new database, and tables from elsewhere too.

Usage: tools/load.py [--csv] (--vault FOLDER | --declare STORAGE ..) [--out NAME | --run PROGRAM] [FILE]

  FILE               what `foedus dump` or `foedus snap` printed, or with --csv a table with the columns storage, key,
                     value, which its first line names; standard input if it is left out
  --vault FOLDER     the script declares the storages of the database there; a dump doesn't tell their sizes
  --declare STORAGE  the script declares this storage, as in --declare "array 1 1024" --declare "tree 2"
  --out NAME         writes NAME1.txt and, since a script has at most 64 MiB, as many more as it takes, which are to be
                     run one after another; without it there is one script, on standard output
  --run PROGRAM      runs the scripts by this program, as ./foedus, on the database `vault` here, one after another;
                     each is a file, whole before the first is run, and the lock of --vault is given back by then

A line has sixteen writes, a round 65,536 lines. A script writes to at most 4,000 pages, and is to be run with
`--slots 4096` where it has more than some 8,000 values of arrays or 1,200 keys of trees. Keys of a tree come in an
order in which ways stay short: first some of all, then range by range. Nothing is written unless the whole input is
well; into a pipe goes the line `load failed` then, which no run takes: an empty script would make a database without
storages. Better is a file, or --run: a run that waits for its script has the database, so --vault couldn't read it.
Status: 0; 1 where the input, the storages or the output can't be used or a run fails, which standard error names; 2 for
other words.
"""
import argparse
import os
import stat
import subprocess
import sys
import tempfile

from rows import HEADER, Refused, csv_rows, dump_rows, each_once, number_in, open_input, write_files, write_out
from vault_format import Storage, Unreadable, Vault

OPS = 16  # of a line
LINES = 65536  # of a round
WORKERS = 8
STORAGES = 16
MOST_VALUES = 131072
BYTES = 64 << 20  # of a script
PAGES = 4000  # that a script writes to, with room for what threads make in vain
KEYS = 4  # of a tree for which a page is counted
PART = 15_000  # keys of a tree, one after another, whose lines are mixed, and of which pages are made at once
FIRST = 30 * 30 * 16  # keys of which pages are made in three full levels
PAUSE = ""  # between parts, in place of an operation or a line
ROUND = "join\n"
OPTIONS = ["run", "--brief", "--tries", "1000000", "--slots", "4096", "--snap", "65536"]


def storage_of(text):
    """The storage that a declaration declares."""
    words = text.split()
    id = number_in(words[1], 255) if len(words) > 1 else None
    if id is not None and words[0] == "tree" and len(words) == 2:
        return Storage(id, None)
    size = number_in(words[2], MOST_VALUES) if len(words) > 2 else None
    if id is not None and size and words[0] == "array" and len(words) == 3:
        return Storage(id, size)
    raise Refused(f"--declare {text!r}: not `array ID SIZE` or `tree ID`, ID 0 to 255, SIZE 1 to {MOST_VALUES}")


def storages_of(options):
    """The storages by their ids, and where they are declared."""
    if options.vault is None:
        found, where = [storage_of(text) for text in options.declare], "by --declare"
    else:
        vault = Vault(options.vault)
        found, where = vault.snapshots[-1].storages if vault.snapshots else [], f"in {options.vault}"
    if not found or len(found) > STORAGES or len({storage.id for storage in found}) < len(found):
        raise Refused(f"1 to {STORAGES} storages with ids of their own are wanted, and {len(found)} stand {where}")
    return {storage.id: storage for storage in found}, where


def writes_of(rows, storages, where, name):
    """The rows as operations."""
    for (id, key, value), line in rows:
        if id not in storages:
            raise Refused(f"{name} line {line}: storage {id} isn't declared {where}")
        size = storages[id].size
        if size is not None and key >= size:
            raise Refused(f"{name} line {line}: key {key} is past the end of storage {id}, an array of {size} {where}")
        yield f"w {id} {key} {value}"


def mixed(lines):
    """The same in the order of their numbers' bits turned round: in the middle first, then in that of each half."""
    bits = (len(lines) - 1).bit_length()
    places = (int(f"{place:0{bits}b}"[::-1], 2) if bits else 0 for place in range(1 << bits))
    return [lines[place] for place in places if place < len(lines)]


def ordered(writes, storages):
    """The operations: of arrays in their order, and then of each tree by parts, in each of which sixteen keys that come
    one after another stay together, and these are mixed. Keys in ascending order would make one way ever longer. Of a
    tree of several parts the first has keys of all its ranges, so that the pages made of it stand above all others."""
    of_trees = {id: [] for id, storage in storages.items() if storage.size is None}
    for op in writes:
        _, id, key, _ = op.split()
        if int(id) in of_trees:
            of_trees[int(id)].append((int(key), op))
        else:
            yield op
    for ops in of_trees.values():
        for part in parts_of([op for _, op in sorted(ops)]):
            for line in mixed([part[at : at + OPS] for at in range(0, len(part), OPS)]):
                yield from line
            yield PAUSE


def parts_of(ops):
    """Operations on one tree, in order of their keys, in parts."""
    if len(ops) > FIRST:
        every = -(-len(ops) // FIRST)
        yield ops[::every]
        ops = [op for place, op in enumerate(ops) if place % every]
    yield from (ops[first : first + PART] for first in range(0, len(ops), PART))


def lines_of(writes):
    """The operations in lines of the workers by turns. Each key stands in one line."""
    ops, count = [], 0
    for op in writes:
        if op != PAUSE:
            ops.append(op)
        if len(ops) == OPS or op == PAUSE and ops:
            yield f"{count % WORKERS} {'; '.join(ops)}\n"
            ops, count = [], count + 1
        if op == PAUSE:
            yield PAUSE
    if ops:
        yield f"{count % WORKERS} {'; '.join(ops)}\n"


def pages_of(line, trees):
    """The pages of arrays that a line writes to, leaves of 32 values and those above, and how many keys of trees."""
    ops = [op.split() for op in line[2:].split("; ")]
    arrays = [(id, int(key)) for _, id, key, _ in ops if id not in trees]
    pages = {(id, span, key // span) for id, key in arrays for span in (32, 2048, MOST_VALUES)}
    return pages, len(ops) - len(arrays)


def scripts_of(declared, lines):
    """The lines in scripts, each with the declarations, in rounds. A script ends where a part of a tree does, unless
    the next part has room in it, too."""
    trees = {line.split()[1] for line in declared.splitlines() if line.startswith("tree")}
    parts, size, count, held, keys = [declared], len(declared), 0, set(), 0
    is_over = False
    for line in lines:
        if line == PAUSE:
            is_over = keys + PART > KEYS * PAGES
            continue
        pages, more = pages_of(line, trees)
        is_full = is_over or len(held | pages) + (keys + more) // KEYS > PAGES
        if size + len(line) + len(ROUND) > BYTES or is_full:
            yield "".join(parts)
            parts, size, count, held, keys, is_over = [declared], len(declared), 0, set(), 0, False
        held |= pages
        keys += more
        if count == LINES:
            parts.append(ROUND)
            size, count = size + len(ROUND), 0
        parts.append(line)
        size, count = size + len(line), count + 1
    yield "".join(parts)


def run_scripts(program, folder, scripts):
    """Runs scripts one after another on the database `vault` of a folder, each from a file of its own. All lines have
    to commit."""
    environment = {name: value for name, value in os.environ.items() if name != "FOEDUS_FOLDER"}
    for place, script in enumerate(scripts, 1):
        with tempfile.TemporaryFile("w+", encoding="ascii") as file:
            file.write(script)
            file.seek(0)
            try:
                done = subprocess.run([program, *OPTIONS], cwd=folder, env=environment, stdin=file,
                                      capture_output=True, text=True)
            except OSError as error:
                raise Refused(f"{program}: {error.strerror}") from None
        told, lines = done.stdout.split(), sum(line[:1].isdigit() for line in script.splitlines())
        if done.returncode:
            last = (done.stdout.splitlines() or [""])[-1]
            errors = "\n".join(done.stderr.splitlines()[:5])
            raise Refused(f"script {place} of {len(scripts)}: status {done.returncode}, {last}\n{errors}")
        if told[:2] != ["commits", str(lines)]:
            raise Refused(f"script {place} of {len(scripts)}: {' '.join(told[:2])} of {lines}")


def load(options):
    storages, where = storages_of(options)
    source, name = open_input(options.file)
    rows = each_once((csv_rows if options.csv else dump_rows)(iter(source), name), name)
    scripts = list(scripts_for(list(writes_of(rows, storages, where, name)), storages))
    if options.out is not None:
        write_files(scripts, [f"{options.out}{place}.txt" for place in range(1, len(scripts) + 1)])
    elif options.run is not None:
        run_scripts(os.path.abspath(options.run), ".", scripts)
    elif len(scripts) > 1:
        raise Refused(f"{name}: too much for one script of 64 MiB, or {PAGES} pages: name files by --out")
    else:
        write_out(scripts[0])


def scripts_for(writes, storages):
    declared = "".join(f"{storage.declaration()}\n" for storage in storages.values())
    return scripts_of(declared, lines_of(ordered(writes, storages)))


def spoil_a_pipe():
    """Makes what a pipe gets no script."""
    try:
        if stat.S_ISFIFO(os.fstat(1).st_mode):
            os.write(1, b"load failed\n")
    except OSError:
        pass


def main():
    parser = argparse.ArgumentParser(usage=__doc__, add_help=False)
    parser.add_argument("file", nargs="?")
    parser.add_argument("--csv", action="store_true")
    storages = parser.add_mutually_exclusive_group(required=True)
    storages.add_argument("--vault")
    storages.add_argument("--declare", action="append")
    outputs = parser.add_mutually_exclusive_group()
    outputs.add_argument("--out")
    outputs.add_argument("--run")
    options = parser.parse_args()
    try:
        load(options)
    except (Refused, Unreadable) as error:
        if options.out is None and options.run is None:
            spoil_a_pipe()
        print(f"load: {error}", file=sys.stderr)
        return 1
    return 0


if __name__ == "__main__":
    sys.exit(main())
