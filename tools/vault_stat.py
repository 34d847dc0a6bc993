#!/usr/bin/env python3
"""Tells what a database directory has in it, read from its files alone, as docs/FORMATS.md describes them: the saved
epoch and the savepoint, the storages, the snapshots with their pages, the log files with the commits that count, and
how much is left of epochs, of pages, and of the levels of each tree (docs/TREES.md, "Limits, and what to do").

Usage: tools/vault_stat.py [--rows] [FOLDER], where FOLDER is `vault` if it is left out. With --rows it prints what
`foedus dump` does. Nothing is changed, and a database that a running program has is refused. Status: 0; 1 where a file
can't be had or isn't in its format, which standard error names; 2 for other words.
"""
import sys

from rows import Refused, write_out
from vault_format import DEEPEST, LAST_SAVED, MOST_PAGES, Unreadable, Vault

USUAL_PAGES = 4096  # that a run lets in where --snap is left out


def rows_of(vault):
    epoch = vault.savepoint.epoch if vault.savepoint else 0
    return [f"epoch {epoch}", *(" ".join(map(str, row)) for row in vault.rows())]


def lines_of(vault):
    point = vault.savepoint
    if point is None:
        return ["saved epoch 0: a fresh database, of which nothing counts"]
    told = [f"saved epoch {point.epoch}, sequence {point.sequence} (place 0 {vault.places[0]}, 1 {vault.places[1]})"]
    rows = vault.rows()
    for storage in vault.snapshots[-1].storages:
        count = sum(1 for row in rows if row[0] == storage.id)
        what = "tree; keys:" if storage.size is None else f"array of {storage.size}; values that aren't 0:"
        told.append(f"storage {storage.id}: {what} {count}")
    told += snapshots_of(vault)
    return told + [line_of(file) for file in vault.log_files] + left_of(vault)


def snapshots_of(vault):
    """A line for each snapshot, with the pages that it added, and one for those of the newest and of the file."""
    told, before = [], 0
    for snapshot in vault.snapshots:
        added = snapshot.page - before
        told.append(f"snapshot of epoch {snapshot.epoch}: catalogue at page {snapshot.page}, {added} added")
        before = snapshot.page
    kinds = vault.kinds
    told.append(
        f"pages of the newest snapshot: arrays {kinds.array_leaves} leaves and {kinds.array_inner} interior, "
        f"trees {kinds.tree_leaves} leaves and {kinds.tree_inner} interior"
    )
    return told + [f"pages: {len(vault.pages)} count, in {vault.length} bytes"]


def left_of(vault):
    """What is left until a run ends in `limit epoch`, `limit snap` or `limit height`, as of the newest snapshot: what
    counts in the log files has no pages yet."""
    epoch, pages = vault.savepoint.epoch, len(vault.pages)
    usual = f"{USUAL_PAGES - pages} where --snap is left out" if pages <= USUAL_PAGES else "a run wants --snap already"
    told = [
        f"left: {LAST_SAVED - epoch} epochs of {LAST_SAVED + 1}",
        f"left: {MOST_PAGES - pages} pages of {MOST_PAGES}; {usual}",
    ]
    told += [f"left: {DEEPEST - deep} levels of {DEEPEST}, of tree {id}" for id, deep in vault.levels.items()]
    if any(commit[0][0] > vault.snapshots[-1].epoch for file in vault.log_files for commit in file.commits):
        told.append("the next run takes pages for what counts in the log files")
    return told


def line_of(file):
    told = f"log file {file.name}: {file.counted} of {file.length} bytes count"
    if not file.commits:
        return told
    (first, _), (last, _) = file.commits[0], file.commits[-1]
    return f"{told}, {len(file.commits)} lines, numbers {first[0]}:{first[1]} to {last[0]}:{last[1]}"


def main(words):
    folders = [word for word in words if word != "--rows"]
    if len(folders) > 1 or any(word.startswith("-") for word in folders):
        print(__doc__, file=sys.stderr)
        return 2
    try:
        vault = Vault(folders[0] if folders else "vault")
        told = rows_of(vault) if "--rows" in words else lines_of(vault)
        write_out("".join(f"{line}\n" for line in told))
    except (Refused, Unreadable) as error:
        print(f"vault_stat: {error}", file=sys.stderr)
        return 1
    return 0


if __name__ == "__main__":
    sys.exit(main(sys.argv[1:]))
