#!/usr/bin/env python3
"""Tries the tools over small databases that the built program makes: what vault_format reads by the documented format
is what the program tells, of damaged files too; dumps and tables that were loaded are dumped again the same; and the
table of commands says what the program takes.

Usage: tests/tools.py PROGRAM, where PROGRAM is the built program, crates/foedus/out/foedus.
"""
import fcntl
import glob
import os
import random
import re
import subprocess
import sys
import tempfile
import unittest
from dataclasses import dataclass

TOP = os.path.dirname(os.path.dirname(os.path.abspath(__file__)))
sys.path.insert(0, f"{TOP}/tools")

import load  # noqa: E402
from vault_format import Unreadable, Vault  # noqa: E402

PROGRAM = None
FLIPS = 60


def answer(folder, command, text=None):
    """The status and the outputs of a command that is called in a folder."""
    done = subprocess.run(command, cwd=folder, input=text, capture_output=True, text=True, check=False)
    return done.returncode, done.stdout, done.stderr


def foedus(folder, *words, text=""):
    status, told, errors = answer(folder, [PROGRAM, *words], text)
    if status:
        raise AssertionError(f"{words}: status {status}, {told[-200:]!r}, {errors[-300:]!r}")
    return told


def tool(folder, name, *words, text=""):
    return answer(folder, [sys.executable, f"{TOP}/tools/{name}", *words], text)


def rows_of(dump):
    return dump.split("\n", 1)[1]


def script_over(*sizes):
    """A script over arrays of these sizes and three trees, with snapshots within the run."""
    draw = random.Random(7)
    sizes = dict(enumerate(sizes, 1))
    lines = [f"array {id} {size}" for id, size in sizes.items()] + ["tree 7", "tree 8", "tree 9"]
    for number in range(7):
        for _ in range(40):
            ops = []
            for _ in range(8):
                id = draw.choice([*sizes, 7, 7, 8])
                key = draw.randrange(sizes[id]) if id in sizes else draw.choice([draw.randrange(400), 2**64 - 1])
                value = draw.choice([0, 1, 2**64 - 1, draw.randrange(2**32)])
                is_gone = id == 7 and draw.random() < 0.3
                ops.append(f"d {id} {key}" if is_gone else f"w {id} {key} {value}")
            lines.append(f"{draw.randrange(8)} {'; '.join(ops)}")
        lines += ["k glean"] * (number % 3 == 2) + ["join"]
    return "\n".join(lines) + "\n"


class Folder(unittest.TestCase):
    """A test with a folder that is removed behind it."""

    def setUp(self):
        room = tempfile.TemporaryDirectory()
        self.addCleanup(room.cleanup)
        self.folder = room.name

    def new(self, name):
        os.mkdir(f"{self.folder}/{name}")
        return f"{self.folder}/{name}"

    def write(self, name, text):
        with open(f"{self.folder}/{name}", "w", encoding="utf-8") as file:
            file.write(text)
        return name


class Reading(Folder):
    def test_examples(self):
        for script in glob.glob(f"{TOP}/examples/*.txt"):
            folder = self.new(os.path.basename(script))
            with open(script, encoding="ascii") as text:
                foedus(folder, "run", text=text.read())
            self.assertEqual(tool(folder, "vault_stat.py", "--rows"), (0, foedus(folder, "dump"), ""), script)

    def test_snapshots_and_logs(self):
        foedus(self.folder, "run", text=script_over(20, 32, 33, 2000, 2049, 131072))
        self.assertEqual(tool(self.folder, "vault_stat.py", "--rows")[1], foedus(self.folder, "dump"))
        vault = Vault(f"{self.folder}/vault")
        told = [f"snap {snapshot.epoch} at {snapshot.page}\n" for snapshot in vault.snapshots]
        self.assertEqual("".join(told), foedus(self.folder, "snaps"))
        self.assertGreater(len(told), 2)
        for snapshot in vault.snapshots:
            told = foedus(self.folder, "snap", str(snapshot.epoch))
            self.assertEqual(rows_of(told), rows_text(vault, snapshot))

    def test_full_pages(self):
        """A tree with so many keys that interior pages have thirty children, which keys came to one after another."""
        keys = [number * 7919 % 1009 for number in range(1, 1009)]
        writes = [f"w 2 {key} {key}" for key in keys]
        lines = [f"0 {'; '.join(writes[first : first + 16])}" for first in range(0, len(writes), 16)]
        lines += ["join", "0 w 2 0 1", "k glean", "join", "k glean"]
        foedus(self.folder, "run", text="\n".join(["tree 2", *lines]))
        self.assertEqual(tool(self.folder, "vault_stat.py", "--rows"), (0, foedus(self.folder, "dump"), ""))
        counts = [words[0] & 255 for words in Vault(f"{self.folder}/vault").pages if words[0] >> 8 == 2]
        self.assertIn(30, counts)

    def test_what_is_told(self):
        lines = "0 w 1 39 5; w 2 8 0", "join", "1 w 2 9 1", "k glean", "join", "3 w 1 0 7"
        foedus(self.folder, "run", text="\n".join(("array 1 40", "tree 2") + lines))
        status, told, _ = tool(self.folder, "vault_stat.py")
        self.assertEqual(status, 0)
        for line in (
            "saved epoch 3, sequence [0-9]+ .*",
            "storage 1: array of 40; values that aren't 0: 2",
            "storage 2: tree; keys: 2",
            "snapshot of epoch 0: catalogue at page 1, 1 added",
            "snapshot of epoch 1: catalogue at page 5, 4 added",
            "pages of the newest snapshot: arrays 1 leaves and 1 interior, trees 1 leaves and 0 interior",
            "pages: 5 count, in [0-9]+ bytes",
            "left: 1048570 epochs of 1048574",
            "left: 65531 pages of 65536; 4091 where --snap is left out",
            "left: 31 levels of 32, of tree 2",
            "the next run takes pages for what counts in the log files",
            "log file bank[67]: 40 of 40 bytes count, 1 lines, numbers 3:3 to 3:3",
        ):
            self.assertRegex(told, f"(?m)^{line}$")

    def test_nothing(self):
        status, told, errors = tool(self.folder, "vault_stat.py")
        self.assertEqual((status, told, errors), (1, "", "vault_stat: vault/save: No such file or directory\n"))
        self.assertEqual(tool(self.folder, "vault_stat.py", "--other")[:2], (2, ""))
        foedus(self.folder, "dump")
        self.assertEqual(tool(self.folder, "vault_stat.py", "--rows"), (0, "epoch 0\n", ""))
        with open(f"{self.folder}/vault/save", "rb") as save:
            fcntl.flock(save, fcntl.LOCK_EX)
            status, told, errors = tool(self.folder, "vault_stat.py")
        self.assertEqual((status, told, errors), (1, "", "vault_stat: vault/save: another process has the database\n"))

    def test_damage(self):
        """With one bit turned the program and the reader name the same byte of the same file, or tell the same rows."""
        foedus(self.folder, "run", text=script_over(20, 33, 2100))
        draw, named = random.Random(11), 0
        for _ in range(FLIPS):
            path = f"{self.folder}/vault/{draw.choice(['save', 'snaps', 'snaps', 'bank0', 'bank1', 'bank2', 'bank3'])}"
            with open(path, "rb") as file:
                before = file.read()
            if not before:
                continue
            at, bit = draw.randrange(len(before)), 1 << draw.randrange(8)
            with open(path, "r+b") as file:
                file.seek(at)
                file.write(bytes([before[at] ^ bit]))
            status, told, _ = answer(self.folder, [PROGRAM, "dump"])
            self.assertEqual(reads(f"{self.folder}/vault"), (status, told), f"{path} at {at} with {bit}")
            named += status == 6
            with open(path, "wb") as file:
                file.write(before)
        self.assertGreater(named, FLIPS // 10)


def rows_text(vault, snapshot):
    records, _ = vault.content_of(snapshot)
    sizes = {storage.id: storage.size for storage in snapshot.storages}
    rows = [(*key, value) for key, (_, value) in sorted(records.items()) if value or sizes[key[0]] is None]
    return "".join(f"{id} {key} {value}\n" for id, key, value in rows)


def reads(folder):
    """What the program is to answer for a dump, by the reader."""
    try:
        vault = Vault(folder)
    except Unreadable as error:
        file, at = re.fullmatch(r".*/(\w+): not in its format from byte (\d+) on: .*", str(error)).groups()
        return 6, f"damaged {file} {at}\n"
    rows = "".join(f"{id} {key} {value}\n" for id, key, value in vault.rows())
    return 0, f"epoch {vault.savepoint.epoch if vault.savepoint else 0}\n{rows}"


class Loading(Folder):
    def setUp(self):
        super().setUp()
        foedus(self.folder, "run", text=script_over(20, 33, 2100))
        self.dump = foedus(self.folder, "dump")
        self.write("kept.txt", self.dump)

    def loads(self, name, *scripts):
        """Runs scripts on a new database, and asks for the same rows."""
        folder = self.new(name)
        for script in scripts:
            foedus(folder, "run", "--brief", text=script)
        self.assertEqual(rows_of(foedus(folder, "dump")), rows_of(self.dump))

    def test_a_dump(self):
        status, script, errors = tool(self.folder, "load.py", "--vault", "vault", "kept.txt")
        self.assertEqual((status, errors), (0, ""))
        self.assertEqual(tool(self.folder, "load.py", "--vault", "vault", text=self.dump)[1], script)
        self.loads("new", script)

    def test_a_table(self):
        status, table, _ = tool(self.folder, "csv_out.py", "kept.txt")
        self.assertEqual((status, table.split("\n", 1)[0]), (0, "storage,key,value"))
        lines = [line.split(",") for line in table.splitlines()]
        turned = [f"{value}, {id},{key}\r\n" for id, key, value in [lines[0], *reversed(lines[1:])]]
        self.write("turned.csv", "".join(turned))
        declared = [word for line in script_over(20, 33, 2100).splitlines()[:6] for word in ("--declare", line)]
        for words in (["turned.csv"], ["--vault", "vault"]):
            words = words if "--vault" in words else [*declared, *words]
            status, script, errors = tool(self.folder, "load.py", "--csv", *words, text=table)
            self.assertEqual((status, errors), (0, ""))
            self.loads(f"new{len(words)}", script)

    def test_several_scripts(self):
        storages = {storage.id: storage for storage in Vault(f"{self.folder}/vault").snapshots[-1].storages}
        declared = "".join(f"{storage.declaration()}\n" for storage in storages.values())
        writes = [f"w {row}" for row in rows_of(self.dump).splitlines()]
        kept = load.BYTES, load.LINES
        self.addCleanup(lambda: setattr(load, "BYTES", kept[0]) or setattr(load, "LINES", kept[1]))
        load.BYTES, load.LINES = 3_000, 5
        scripts = list(load.scripts_of(declared, load.lines_of(writes)))
        self.assertGreater(len(scripts), 2)
        for script in scripts:
            self.assertLessEqual(len(script), load.BYTES)
            self.assertLessEqual(max(part.count("\n") for part in script[len(declared) :].split("join\n")), load.LINES)
        self.loads("new", *scripts)

    def test_pages_of_arrays(self):
        rows = [f"1 {key} 1" for key in range(0, 131072, 32)]
        scripts = list(load.scripts_of("array 1 131072\n", load.lines_of(f"w {row}" for row in rows)))
        self.assertEqual(len(scripts), 2)
        folder = self.new("pages")
        for script in scripts:
            foedus(folder, "run", "--brief", "--slots", "4096", text=script)
        self.assertEqual(rows_of(foedus(folder, "dump")).splitlines(), rows)

    def test_pages_of_trees(self):
        """Keys in ascending order, which come in another one, in as many scripts as have slots for their pages."""
        rows = [f"2 {key} 1" for key in range(20_000)]
        storages = {2: load.Storage(2, None)}
        writes = load.ordered([f"w {row}" for row in rows], storages)
        scripts = list(load.scripts_of("tree 2\n", load.lines_of(writes)))
        self.assertEqual(len(scripts), 2)
        folder = self.new("pages")
        for script in scripts:
            told = foedus(folder, "run", "--brief", "--slots", "4096", text=script)
            self.assertEqual(told.split()[1], str(script.count(";") // 15))
        self.assertEqual(rows_of(foedus(folder, "dump")).splitlines(), rows)

    def test_files(self):
        self.assertEqual(tool(self.folder, "load.py", "--vault", "vault", "--out", "part", "kept.txt"), (0, "", ""))
        self.assertEqual([name for name in os.listdir(self.folder) if "part" in name], ["part1.txt"])
        with open(f"{self.folder}/part1.txt", encoding="ascii") as script:
            self.loads("new", script.read())
        status, _, errors = tool(self.folder, "load.py", "--vault", "vault", "--out", "none/part", "kept.txt")
        self.assertEqual((status, "none" in errors), (1, True))


def call_words(command, option, value):
    """A call with a value for one of its options or words, and 1 for its other words."""
    words = [line.name for line in commands() if line.command == command and line.kind == "word"]
    given = [str(value) if word == option else "1" for word in words]
    return [command, *given] if option in words else [command, *given, option.split()[0], str(value)]


@dataclass
class TableLine:
    """A line of tools/commands.txt, with the command that it stands below."""

    command: str
    kind: str
    name: str
    least: str
    most: str
    usual: str


def commands():
    lines, command = [], None
    with open(f"{TOP}/tools/commands.txt", encoding="ascii") as table:
        for line in table:
            fields = [field.strip() for field in line.split("|")]
            if len(fields) == 6:
                command = fields[1] if fields[0] == "command" else command
                lines.append(TableLine(command, *fields[:5]))
    return lines


class Commands(Folder):
    """The table of which the man page and the completion are made says what the program takes."""

    def status_of(self, words):
        return answer(self.folder, [PROGRAM, *words], "")[0]

    def test_ranges(self):
        ranges = [line for line in commands() if line.least]
        self.assertEqual(len(ranges), 7)
        for line in ranges:
            for value, is_taken in (
                (int(line.least), True),
                (int(line.most), True),
                (int(line.least) - 1, False),
                (int(line.most) + 1, False),
                (line.usual or line.least, True),
            ):
                words = call_words(line.command, line.name, value)
                self.assertEqual(self.status_of(words) != 2, is_taken, words)

    def test_names(self):
        told = answer(self.folder, [PROGRAM, "--help"])[2]
        for line in commands():
            if line.kind in ("command", "option") and line.name != "--version":
                self.assertRegex(told, f"(?m)^  {line.name}( |$)")
            if line.usual:
                self.assertRegex(told, f"(?m)^  {line.name} .*: {line.least} to {line.most}, {line.usual} if left out")


class Refusing(Folder):
    """What can't be used is named with its line, and nothing is printed, but by load.py what no run takes."""

    def refuses(self, words, text, *told):
        status, printed, errors = tool(self.folder, *words, text=text)
        shown = "load failed\n" if words[0] == "load.py" else ""
        self.assertEqual((status, printed, "Traceback" in errors), (1, shown, False), f"{words} {text!r}: {errors}")
        for part in told:
            self.assertIn(part, errors)

    def test_inputs(self):
        declared = ["load.py", "--declare", "array 1 8", "--declare", "tree 2"]
        for text, *told in (
            ("", "standard input line 1", "no dump"),
            ("damaged save 512\n", "standard input line 1", "no dump"),
            ("epoch 1\n1 0 1\n1 8 1\n", "standard input line 3", "key 8", "array of 8"),
            ("epoch 1\n3 0 1\n", "standard input line 2", "storage 3"),
            ("epoch 1\n2 0\n", "standard input line 2", "a row has"),
            ("epoch 1\n2 0 x\n", "standard input line 2", "'x'"),
            ("epoch 1\n2 0 18446744073709551616\n", "standard input line 2", "18446744073709551616"),
            ("epoch 1\n2 01 1\n", "standard input line 2", "'01'"),
            ("epoch 1\n2 5 1\n2 5 2\n", "standard input line 3", "a second time"),
            ("epoch 1\n2 5 1\n\n", "standard input line 3"),
        ):
            self.refuses(declared, text, *told)
        for text, *told in (
            ("", "standard input line 1", "columns"),
            ("storage,key\n", "standard input line 1", "columns"),
            ("storage,key,value\n2,1\n", "standard input line 2", "a row has"),
            ("storage,key,value\n2,1,-1\n", "standard input line 2", "'-1'"),
        ):
            self.refuses([*declared, "--csv"], text, *told)
        self.refuses(["csv_out.py"], "usage\n", "standard input line 1")

    def test_files_and_storages(self):
        self.refuses(["csv_out.py", "none.txt"], "", "none.txt", "No such file")
        self.refuses(["load.py", "--declare", "tree 2", "none.txt"], "", "none.txt", "No such file")
        self.refuses(["load.py", "--vault", "vault"], "", "vault/save", "No such file")
        for declared in ("tree", "tree 256", "array 1", "array 1 0", "array 1 131073", "list 1"):
            self.refuses(["load.py", "--declare", declared], "epoch 0\n", repr(declared))
        self.refuses(["load.py", "--declare", "tree 2", "--declare", "array 2 1"], "epoch 0\n", "ids of their own")
        self.assertEqual(tool(self.folder, "load.py")[:2], (2, ""))
        self.assertEqual(tool(self.folder, "csv_out.py", "one", "two")[:2], (2, ""))


if __name__ == "__main__":
    if len(sys.argv) < 2:
        sys.exit(__doc__)
    PROGRAM = os.path.abspath(sys.argv.pop(1))
    unittest.main()
