"""Rows of a database, each a storage, a key and a value, as `foedus dump` prints them and as CSV."""
from __future__ import annotations

import csv
import os
import re
import sys
import tempfile

HEADER = ["storage", "key", "value"]
WHOLE = 2**64
PLAIN = re.compile("0|[1-9][0-9]*", re.ASCII)


class Refused(Exception):
    """What can't be used, and why, for a person."""


def number_in(word, most):
    """The number that a word is, in digits without a leading zero and at most this, or None."""
    return int(word) if PLAIN.fullmatch(word) and len(word) <= 20 and int(word) <= most else None


def open_input(path):
    """The file, or standard input where there is no path, and its name."""
    if path is None:
        return sys.stdin, "standard input"
    try:
        return open(path, encoding="ascii", errors="replace", newline=""), path
    except OSError as error:
        raise Refused(f"{path}: {error.strerror}") from None


def row_of(words, where):
    """A row of three words."""
    if len(words) != 3:
        raise Refused(f"{where}: a row has a storage, a key and a value")
    row = number_in(words[0], 255), number_in(words[1], WHOLE - 1), number_in(words[2], WHOLE - 1)
    for word, number, name in zip(words, row, HEADER):
        if number is None:
            raise Refused(f"{where}: {word[:40]!r} is no {name}")
    return row


def dump_rows(lines, name):
    """The rows of what `foedus dump` or `foedus snap` prints, behind the line of its epoch."""
    if not re.fullmatch("epoch [0-9]+\r?\n?", next(lines, "")):
        raise Refused(f"{name} line 1: no dump, which begins with its epoch")
    for place, line in enumerate(lines, 2):
        yield row_of(line.rstrip("\r\n").split(" "), f"{name} line {place}"), place


def csv_rows(lines, name):
    """The rows of CSV with the columns storage, key, value, in any order, which a first line names."""
    rows = csv.reader(lines)
    try:
        header = [word.strip() for word in next(rows, [])]
        if sorted(header) != sorted(HEADER):
            raise Refused(f"{name} line 1: the columns are {', '.join(HEADER)}, in any order")
        order = [header.index(column) for column in HEADER]
        for words in rows:
            if words:
                where = f"{name} line {rows.line_num}"
                if len(words) != 3:
                    raise Refused(f"{where}: a row has a storage, a key and a value")
                yield row_of([words[place].strip() for place in order], where), rows.line_num
    except csv.Error as error:
        raise Refused(f"{name} line {rows.line_num}: {error}") from None


def each_once(rows, name):
    """The rows, of which no two have the same key."""
    seen = set()
    for row, line in rows:
        if row[:2] in seen:
            raise Refused(f"{name} line {line}: key {row[1]} of storage {row[0]} stands there a second time")
        seen.add(row[:2])
        yield row, line


def write_files(texts, names):
    """Writes each text into its file, all of them or none: under names of their own first, which are changed then."""
    made = []
    try:
        for text, name in zip(texts, names):
            with tempfile.NamedTemporaryFile(
                "w", dir=os.path.dirname(name) or ".", prefix=".", delete=False, encoding="ascii", newline=""
            ) as file:
                made.append(file.name)
                file.write(text)
            os.chmod(file.name, 0o666 & ~mask())
        for draft, name in zip(made, names):
            os.replace(draft, name)
        made = []
    except OSError as error:
        raise Refused(f"{error.filename or name}: {error.strerror}") from None
    finally:
        for draft in made:
            if os.path.exists(draft):
                os.remove(draft)


def mask():
    """The file mode bits that the system leaves out of a new file's."""
    now = os.umask(0)
    os.umask(now)
    return now


def write_out(text):
    """Writes a whole text to standard output."""
    try:
        sys.stdout.write(text)
        sys.stdout.flush()
    except OSError as error:
        sys.stdout = None
        raise Refused(f"standard output: {error.strerror}") from None
