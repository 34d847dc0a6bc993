#!/usr/bin/env python3
"""Changes each byte of a small database, and compares what the program tells with a reading by the documented format
(tools/vault_format.py, which knows nothing of the program): the rows, or `damaged NAME AT` at the same byte.

Usage: tests/changed_bytes.py PROGRAM [VALUES [FIRST [LAST [STEP]]]]. Each byte gets so many other values, 3 if it is
left out and 255 at most: the one with its lowest bit changed, 0, the valid byte 0xA5, and others. FIRST and LAST are
the databases to take, of three, by their numbers from 0. With STEP only each STEP-th byte is changed. Each file is also
cut by a byte, to half and to nothing, and gets a byte more. Status: 0 where all agree, else 1.
"""
import os
import subprocess
import sys
import tempfile

sys.path.insert(0, os.path.join(os.path.dirname(os.path.abspath(__file__)), "..", "tools"))
from vault_format import Unreadable, Vault  # noqa: E402

FILES = ["save", "snaps", *(f"bank{number}" for number in range(16))]

# The scripts of each database, one run after another.
DATABASES = [
    ["array 1 4\n0 w 1 2 7; r 1 2\n1 a 1 0 1\n"],
    ["array 1 4\n0 w 1 2 7\njoin\nk glean\njoin\n0 a 1 2 1\n"],
    [
        "array 1 40\ntree 2\n0 w 1 33 5; w 2 7 1; w 2 9 0\n" + "".join(f"1 w 2 {key} {key}\n" for key in range(20, 38)),
        "array 1 40\ntree 2\n0 d 2 20; w 1 2 8\n",
    ],
]


def call(folder, *words, script=""):
    done = subprocess.run([PROGRAM, *words], cwd=folder, input=script.encode(), stdout=subprocess.PIPE,
                          stderr=subprocess.DEVNULL, timeout=60)
    return done.returncode, done.stdout.decode()


def reading(folder):
    """What a dump is to answer."""
    try:
        vault = Vault(f"{folder}/vault")
    except Unreadable as error:
        return 6, f"damaged {os.path.basename(error.file)} {error.at}\n"
    rows = "".join(f"{storage} {key} {value}\n" for storage, key, value in vault.rows())
    return 0, f"epoch {vault.savepoint.epoch if vault.savepoint else 0}\n{rows}"


def values_of(byte, count):
    """Other values of a byte."""
    first = [byte ^ 1, 0, 0xA5, byte ^ 0x80, 0xFF, 1, 2]
    every = [*first, *range(256)]
    return [value for place, value in enumerate(every) if value != byte and value not in every[:place]][:count]


def contents_of(content, count, every):
    """The file with each byte changed, and with other lengths, each with what was done."""
    for at, byte in list(enumerate(content))[::every]:
        for value in values_of(byte, count):
            yield f"byte {at} is {value}", content[:at] + bytes([value]) + content[at + 1:]
    for length in sorted({0, len(content) // 2, max(len(content) - 1, 0)} - {len(content)}):
        yield f"cut to {length}", content[:length]
    yield "a byte more", content + b"\0"


def try_file(folder, name, count, every):
    """How many changes there were, and of how many damage was told."""
    path = f"{folder}/vault/{name}"
    with open(path, "rb") as file:
        content = file.read()
    tried = damaged = 0
    for what, changed in contents_of(content, count, every):
        with open(path, "wb") as file:
            file.write(changed)
        wanted, got = reading(folder), call(folder, "dump")
        if got != wanted:
            sys.exit(f"{name}: {what}: {got}, not {wanted}")
        tried += 1
        damaged += got[0] == 6
    with open(path, "wb") as file:
        file.write(content)
    return tried, damaged


def try_database(number, count, every):
    tried = damaged = 0
    with tempfile.TemporaryDirectory() as folder:
        for script in DATABASES[number]:
            status, text = call(folder, "run", script=script)
            assert status == 0, text
        for name in FILES:
            more = try_file(folder, name, count, every)
            tried, damaged = tried + more[0], damaged + more[1]
    print(f"database {number}: {tried} changes, damage told of {damaged}, all as by the format", flush=True)


def main():
    global PROGRAM
    if len(sys.argv) < 2:
        sys.exit(__doc__)
    PROGRAM = os.path.abspath(sys.argv[1])
    words = [int(word) for word in sys.argv[2:]]
    count, first, last, every = words + [3, 0, len(DATABASES) - 1, 1][len(words):]
    for number in range(first, last + 1):
        try_database(number, count, every)


if __name__ == "__main__":
    if len(sys.argv) < 2 or {"-h", "--help"} & set(sys.argv):
        print(__doc__)
        sys.exit(len(sys.argv) < 2)
    main()
