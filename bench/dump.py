#!/usr/bin/env python3
"""Measures what a dump of a large database takes: seconds, and peak memory as a multiple of the database's size.

The databases have a tree, and one, two and four million log lines over the eight workers' first log files, each with one put
of a key of its own. Where sqlite3 is installed, its .dump of as many rows stands beside each.
Usage: bench/dump.py PROGRAM, where PROGRAM is `./foedus` or the built program.
"""
import os
import shutil
import sqlite3
import struct
import subprocess
import sys
import tempfile
import time

WORKERS = 8
LINE = 40
MILLION = 1_000_000
VALID = 0xA5
MAGIC = 0x464F454455530001
CATALOGUE = 0x4341540000000000


def words(values, count):
    return struct.pack(f">{count}Q", *values, *[0] * (count - len(values)))


def log_file(worker, lines):
    pack = struct.Struct(">5Q").pack
    numbers = range(worker + 1, lines + 1, WORKERS)
    return b"".join(pack((1 << 40) + k, 1, 256 + 2, k * 2654435761 % 2**64, k) for k in numbers)


def make_vault(folder, lines):
    """A database of epoch 1 with the tree 2: a snapshot without pages, and its log files."""
    os.mkdir(folder)
    lengths = []
    for worker in range(WORKERS):
        content = log_file(worker, lines)
        lengths += [len(content), 0]
        with open(f"{folder}/bank{2 * worker}", "wb") as bank:
            bank.write(content)
        open(f"{folder}/bank{2 * worker + 1}", "wb").close()
    with open(f"{folder}/snaps", "wb") as snaps:
        snaps.write(words([CATALOGUE + 1, 0, 0] + [0] * 13 + [2 + 512, 0, 0], 64))
    with open(f"{folder}/save", "wb") as save:
        save.write(bytes([VALID] + [0] * 7) + words([MAGIC, 1, 1, 1, 1] + lengths, 63) + bytes(512))
    return sum(lengths) + 512 + 1024


def run(folder, command):
    """Seconds, peak memory in bytes, and lines printed, of a command run in a folder."""
    counted = subprocess.Popen(["wc", "-l"], stdin=subprocess.PIPE, stdout=subprocess.PIPE)
    start = time.monotonic()
    child = os.fork()
    if child == 0:
        os.chdir(folder)
        os.dup2(counted.stdin.fileno(), 1)
        os.execvp(command[0], command)
    _, status, usage = os.wait4(child, 0)
    seconds = time.monotonic() - start
    counted.stdin.close()
    printed = int(counted.stdout.read())
    if os.waitstatus_to_exitcode(status) != 0:
        sys.exit(f"{command[0]} ended with {os.waitstatus_to_exitcode(status)}")
    return seconds, usage.ru_maxrss * 1024, printed


def make_table(path, lines):
    with sqlite3.connect(path) as table:
        table.execute("create table rows (key integer primary key, value integer)")
        table.executemany(
            "insert into rows values (?, ?)", ((k * 2654435761 % 2**63, k) for k in range(1, lines + 1))
        )


def measure(program, lines):
    with tempfile.TemporaryDirectory() as folder:
        child = os.fork()
        if child == 0:
            make_vault(f"{folder}/vault", lines)
            os._exit(0)
        os.waitpid(child, 0)
        size = sum(entry.stat().st_size for entry in os.scandir(f"{folder}/vault"))
        seconds, peak, printed = run(folder, [program, "dump"])
        print(f"{lines:8} log lines: {printed:8} lines, {seconds:5.2f} s, peak {peak / size:4.1f} times {size} bytes")
        if shutil.which("sqlite3"):
            make_table(f"{folder}/table", lines)
            seconds, peak, printed = run(folder, ["sqlite3", f"{folder}/table", ".dump"])
            print(f"     sqlite3 .dump: {printed:8} lines, {seconds:5.2f} s, peak {peak // 2**20} MiB")


def main():
    program = os.path.abspath(sys.argv[1])
    for millions in (1, 2, 4):
        measure(program, millions * MILLION)


if __name__ == "__main__":
    if len(sys.argv) < 2 or {"-h", "--help"} & set(sys.argv):
        print(__doc__)
        sys.exit(len(sys.argv) < 2)
    main()
