"""Reads a database directory as docs/FORMATS.md describes it; nothing in it is changed.

`Vault(folder)` reads the savepoint, the snapshots and the log files that it counts, and raises `Unreadable` with the
file's name where one can't be had or isn't in its format. It knows nothing of the program but that document.
"""
from __future__ import annotations

import fcntl
import os
import struct
from dataclasses import dataclass, field

PLACE = 512  # bytes of a savepoint's place, and of a page
VALID = 0xA5
MAGIC = 0x464F454455530001
CATALOGUE = 0x434154 << 40
FILES = 16
LAST_SAVED = 2**20 - 3
MOST_PAGES = 65536
DEEPEST = 32
LEAF, FAN = 32, 64  # records of an array's leaf, pointers of its interior page
WHOLE = 2**64


class Unreadable(Exception):
    """A file that can't be had or isn't in its format, by name; `at` is its first byte that isn't, if it has bytes."""

    def __init__(self, file, why, at=None):
        super().__init__(f"{file}: {why}" if at is None else f"{file}: not in its format from byte {at} on: {why}")
        self.file, self.at = file, at


@dataclass
class Storage:
    """An array of so many values, or a tree, of which the size is None; its root page is 0 where it has none."""

    id: int
    size: int | None
    root: int = 0

    def declaration(self):
        return f"tree {self.id}" if self.size is None else f"array {self.id} {self.size}"


@dataclass
class Savepoint:
    """What a store of the savepoint says. Lengths are bytes of the log files that count."""

    sequence: int
    epoch: int
    catalogue: int
    lengths: list


@dataclass
class Snapshot:
    """A snapshot's epoch, its catalogue's page, and its storages in order of their ids."""

    epoch: int
    page: int
    storages: list


@dataclass
class LogFile:
    """A log file's length, and its commits that count: the number's epoch and draw, and the changes, each a storage,
    a key and a value, which is None for a removal."""

    name: str
    length: int
    counted: int
    commits: list = field(default_factory=list)


@dataclass
class Pages:
    """How many pages of each kind a snapshot has."""

    array_leaves: int = 0
    array_inner: int = 0
    tree_leaves: int = 0
    tree_inner: int = 0


def words_of(content):
    return struct.unpack(f">{len(content) // 8}Q", content)


def number_of(word):
    """The epoch and the draw of a commit number's word, or None where it has none."""
    epoch, draw = word >> 40, word & (2**40 - 1)
    return (epoch, draw) if 1 <= epoch <= LAST_SAVED + 1 and draw >= 1 else None


class Vault:
    """A database directory. `savepoint` is None for a fresh one, of which nothing counts. Where `is_locked`, the caller
    keeps running programs away; else this object does as long as it lives."""

    def __init__(self, folder, is_locked=False):
        self.folder = folder
        self.is_locked = is_locked
        self.lock = None
        save = self.content("save")
        self.savepoint = read_savepoint(os.path.join(folder, "save"), save)
        self.places = ["open" if save[place * PLACE] == VALID else "closed" for place in (0, 1)]
        self.pages, self.length, self.snapshots, self.log_files = [], 0, [], []
        self.levels = {}  # of each tree of the newest snapshot
        if self.savepoint is not None:
            self.read_counted()

    def __del__(self):
        if self.lock is not None:
            os.close(self.lock)

    def content(self, name):
        """All bytes of a file. The savepoint's is locked, as `is_locked` says."""
        path = os.path.join(self.folder, name)
        try:
            with open(path, "rb") as file:
                if name == "save" and not self.is_locked:
                    self.lock = os.dup(file.fileno())
                    fcntl.flock(self.lock, fcntl.LOCK_SH | fcntl.LOCK_NB)
                return file.read()
        except BlockingIOError:
            raise Unreadable(path, "another process has the database") from None
        except OSError as error:
            raise Unreadable(path, error.strerror) from None

    def read_counted(self):
        point = self.savepoint
        snaps = self.content("snaps")
        self.length = len(snaps)
        if len(snaps) < PLACE * point.catalogue:
            raise Unreadable(f"{self.folder}/snaps", f"{point.catalogue} pages count", len(snaps))
        self.pages = [words_of(snaps[PLACE * n : PLACE * (n + 1)]) for n in range(point.catalogue)]
        self.snapshots = list(reversed(list(self.catalogues())))
        self.kept, self.kinds = self.content_of(self.snapshots[-1], self.levels)
        self.log_files = [self.log_file(number) for number in range(FILES)]

    def damaged(self, page, why):
        return Unreadable(f"{self.folder}/snaps", f"page {page}: {why}", PLACE * (page - 1))

    def catalogues(self):
        """The snapshots, the newest first."""
        page, limit, declared = self.savepoint.catalogue, self.savepoint.epoch + 1, None
        while page:
            snapshot, previous = read_catalogue(page, self.pages[page - 1]) or (None, None)
            if snapshot is None:
                raise self.damaged(page, "no catalogue")
            storages = [storage.declaration() for storage in snapshot.storages]
            if snapshot.epoch >= limit or declared not in (None, storages):
                raise self.damaged(page, "a catalogue that doesn't go on with the one after it")
            if previous == 0 and (snapshot.epoch or any(storage.root for storage in snapshot.storages)):
                raise self.damaged(page, "a first catalogue with an epoch or a page")
            yield snapshot
            page, limit, declared = previous, snapshot.epoch, storages

    def content_of(self, snapshot, levels=None):
        """The records of a snapshot, as a number and a value by storage and key, and its pages by kind. How many levels
        of pages each tree has is put into `levels`."""
        records, kinds = {}, Pages()
        for storage in snapshot.storages:
            if storage.size is None:
                deepest = self.read_tree(storage, snapshot.epoch, records, kinds)
                if levels is not None:
                    levels[storage.id] = deepest
            else:
                self.read_array(storage, snapshot.epoch, records, kinds)
        return records, kinds

    def read_array(self, storage, epoch, records, kinds):
        """A page stands for a range of indexes: the root for all of them, a child for one of 64 equal parts."""
        span = LEAF
        while span < storage.size:
            span *= FAN
        below = [(storage.root, 0, span)]
        while below:
            page, low, span = below.pop()
            if page == 0:
                continue
            part = 1 if span == LEAF else span // FAN
            used = min(LEAF if span == LEAF else FAN, -(-(storage.size - low) // part))
            words = self.pages[page - 1]
            if any(words[2 * used if span == LEAF else used :]):
                raise self.damaged(page, "words behind the used part of an array's page")
            if span == LEAF:
                kinds.array_leaves += 1
                rows = [(low + place, words[2 * place], words[2 * place + 1]) for place in range(used)]
                self.add_records(page, storage.id, epoch, [row for row in rows if row[1] or row[2]], records)
                continue
            kinds.array_inner += 1
            children = [(words[place], low + part * place, part) for place in range(used)]
            if any(child >= page for child, _, _ in children):
                raise self.damaged(page, "a pointer that doesn't lead to a page below")
            below += reversed(children)

    def read_tree(self, storage, epoch, records, kinds):
        """A page stands for a range of keys: the root for all of them. Answers how deep the lowest page stands."""
        below, deepest = [(storage.root, 0, WHOLE - 1, 1)], 0
        while below:
            page, low, high, depth = below.pop()
            if page == 0:
                continue
            deepest = max(deepest, depth)
            words = self.pages[page - 1]
            kind, count = words[0] >> 8, words[0] & 255
            if words[1:3] != (low, high) or depth > DEEPEST:
                raise self.damaged(page, f"no page of a tree for the keys {low} to {high}, at most {DEEPEST} deep")
            if kind == 1 and count <= 16 and not any(words[3:16]) and not any(words[16 + 3 * count :]):
                kinds.tree_leaves += 1
                rows = [words[16 + 3 * place : 19 + 3 * place] for place in range(count)]
                keys = [row[0] for row in rows]
                if keys != sorted(set(keys)) or not all(low <= key <= high for key in keys):
                    raise self.damaged(page, "keys that don't rise between the fences")
                self.add_records(page, storage.id, epoch, rows, records)
            elif kind == 2 and 2 <= count <= 30 and self.is_inner(page, words, count):
                kinds.tree_inner += 1
                lows = [low, *words[34 : 33 + count]]
                highs = [*(separator - 1 for separator in lows[1:]), high]
                below += reversed([(words[4 + n], lows[n], highs[n], depth + 1) for n in range(count)])
            else:
                raise self.damaged(page, "no leaf and no interior page of a tree")
        return deepest

    def is_inner(self, page, words, count):
        cuts = [words[1], *words[34 : 33 + count]]
        rise = all(one < other for one, other in zip(cuts, cuts[1:])) and cuts[-1] <= words[2]
        rest = words[3], *words[4 + count : 34], *words[33 + count :]
        return rise and not any(rest) and all(0 < child < page for child in words[4 : 4 + count])

    def add_records(self, page, id, epoch, rows, records):
        for key, word, value in rows:
            number = number_of(word)
            if number is None or number[0] > epoch:
                raise self.damaged(page, f"key {key} without a commit number up to epoch {epoch}")
            records[id, key] = number, value

    def log_file(self, number):
        name, counted = f"bank{number}", self.savepoint.lengths[number]
        content = self.content(name)
        path = f"{self.folder}/{name}"
        if len(content) < counted:
            raise Unreadable(path, f"{counted} bytes count", len(content))
        file = LogFile(name, len(content), counted)
        storages = {storage.id: storage for storage in self.snapshots[-1].storages}
        at, before = 0, (0, 0)
        while at < counted:
            commit = read_log_line(content[at:counted][:400], storages)
            if commit is None or commit[0] <= before:
                raise Unreadable(path, "no log line of these storages behind the one before", at)
            file.commits.append(commit)
            at, before = at + 16 + 24 * len(commit[1]), commit[0]
        return file

    def rows(self):
        """What the database keeps: the value by storage and key, of arrays where it isn't 0, in ascending order."""
        if self.savepoint is None:
            return []
        kept, snapshot = dict(self.kept), self.snapshots[-1]
        for file in self.log_files:
            for number, changes in file.commits:
                if snapshot.epoch < number[0] <= self.savepoint.epoch:
                    for id, key, value in changes:
                        if (id, key) not in kept or kept[id, key][0] < number:
                            kept[id, key] = number, value
        trees = {storage.id for storage in snapshot.storages if storage.size is None}
        present = {key: value for key, (_, value) in kept.items() if value or value == 0 and key[0] in trees}
        return [(*key, value) for key, value in sorted(present.items())]


def read_savepoint(path, save):
    """The newest savepoint of a save device's bytes, or None where no place is open."""
    if len(save) != 2 * PLACE:
        raise Unreadable(path, f"{len(save)} bytes, not {2 * PLACE}", 0)
    opened = [place for place in (0, 1) if save[place * PLACE] == VALID]
    found = [read_place(path, save[place * PLACE :][:PLACE], place) for place in opened]
    return max(found, key=lambda point: point.sequence, default=None)


def read_place(path, content, place):
    magic, sequence, epoch, catalogue, count, *rest = words_of(content[8:])
    lengths = rest[:FILES]
    is_one = magic == MAGIC and not any(content[1:8]) and not any(rest[FILES:])
    is_one &= 1 <= sequence < 2**63 and sequence % 2 == 1 - place and epoch <= LAST_SAVED
    is_one &= 1 <= catalogue == count <= MOST_PAGES and all(length < 2**40 for length in lengths)
    if not is_one:
        raise Unreadable(path, "an open place without a savepoint of it", place * PLACE)
    return Savepoint(sequence, epoch, catalogue, lengths)


def read_catalogue(page, words):
    """The snapshot whose catalogue a page is, and the page of the previous one, or None where it is no catalogue."""
    count, epoch, previous = words[0] - CATALOGUE, words[1], words[2]
    if not 0 <= count <= 16 or epoch > LAST_SAVED or previous >= page:
        return None
    storages = []
    for place in range(16, 16 + 3 * count, 3):
        word, size, root = words[place : place + 3]
        kind, id = word >> 8, word & 255
        if root >= page or not (kind == 1 and 1 <= size <= 131072 or kind == 2 and size == 0):
            return None
        storages.append(Storage(id, size if kind == 1 else None, root))
    ids = [storage.id for storage in storages]
    if ids != sorted(set(ids)) or any(words[3:16]) or any(words[16 + 3 * count :]):
        return None
    return Snapshot(epoch, page, storages), previous


def read_log_line(content, storages):
    """The commit's number and its changes, of the line that begins the bytes, or None where none of these storages
    does."""
    if len(content) < 16:
        return None
    number, count = number_of(words_of(content[:8])[0]), words_of(content[8:16])[0]
    if number is None or not 1 <= count <= 16 or len(content) < 16 + 24 * count:
        return None
    words, changes = words_of(content[16 : 16 + 24 * count]), []
    for head, key, value in zip(words[::3], words[1::3], words[2::3]):
        storage = storages.get(head & 255)
        if head > 511 or storage is None or storage.size is not None and (key >= storage.size or head < 256):
            return None
        if head < 256 and value:
            return None
        changes.append((head & 255, key, value if head >= 256 else None))
    rise = all(one[:2] < other[:2] for one, other in zip(changes, changes[1:]))
    return (number, changes) if rise else None
