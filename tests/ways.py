#!/usr/bin/env python3
"""Goes the ways of use on which a database or a user comes to an end, each with the way out that the documents name:
limits (`limit snap`, `limit height`, `limit epoch`, `wide`) and a rebuild; empty input; lines in conflict on a busy
machine; a database that another process has; copies; rebuilds that are killed or can't exchange names.

Usage: tests/ways.py PROGRAM [TEST ..], where PROGRAM is a program to try, as release/foedus. Databases are made in
TMPDIR. What a test wants and isn't there (strace) leaves it out. Status: 0 where all holds, else 1.
"""
import fcntl
import os
import random
import shutil
import signal
import subprocess
import sys
import tempfile
import time
import unittest

TOP = os.path.dirname(os.path.dirname(os.path.abspath(__file__)))
PROGRAM = None
KILLS = 5


def answer(folder, command, text=""):
    """The status and the outputs of a command that is called in a folder."""
    done = subprocess.run(command, cwd=folder, input=text, capture_output=True, text=True, check=False)
    return done.returncode, done.stdout, done.stderr


class Ways(unittest.TestCase):
    def setUp(self):
        room = tempfile.TemporaryDirectory()
        self.addCleanup(room.cleanup)
        self.folder = room.name

    def foedus(self, *words, text="", folder=None):
        return answer(folder or self.folder, [PROGRAM, *words], text)

    def tool(self, name, *words, text=""):
        more = ["--program", PROGRAM] if name in ("rebuild", "backup") else []
        return answer(self.folder, [sys.executable, f"{TOP}/tools/{name}", *more, *words], text)

    def rows(self, folder=None):
        status, told, errors = self.foedus("dump", folder=folder)
        self.assertEqual(status, 0, f"{told[-200:]} {errors}")
        return told.split("\n", 1)[1]

    def runs(self, text, *words):
        status, told, errors = self.foedus("run", *words, text=text)
        self.assertEqual(status, 0, f"{told[-200:]} {errors}")
        return told

    def until_limit(self, scripts, *words):
        """The number of the first run that isn't done, with its last line."""
        for number, script in enumerate(scripts, 1):
            status, told, _ = self.foedus("run", *words, text=script)
            if status:
                return number, status, told.splitlines()[-1]
        return None

    def rebuilt(self):
        """Rebuilds, and asks for the same rows and for the old database beside it."""
        before = self.rows()
        status, told, errors = self.tool("rebuild")
        self.assertEqual((status, "--yes" in errors, "epoch 1" in told), (1, True, True), errors)
        self.assertEqual(sorted(os.listdir(self.folder)), ["vault"])
        status, told, errors = self.tool("rebuild", "--yes")
        self.assertEqual(status, 0, f"{told} {errors}")
        self.assertEqual(self.rows(), before)
        kept = [name for name in os.listdir(self.folder) if name.startswith("vault.before-")]
        self.assertEqual((len(kept), len(os.listdir(self.folder))), (1, 2))
        self.assertEqual(sorted(os.listdir(f"{self.folder}/vault")), sorted(os.listdir(f"{self.folder}/{kept[0]}")))
        os.mkdir(f"{self.folder}/old")
        os.rename(f"{self.folder}/{kept[0]}", f"{self.folder}/old/vault")
        self.assertEqual(self.rows(f"{self.folder}/old"), before)
        shutil.rmtree(f"{self.folder}/old")
        return told


class Limits(Ways):
    def test_one_addition_a_run(self):
        """Each run makes a snapshot of what the one before it logged, of two pages here: half as many as --snap."""
        number, status, last = self.until_limit(["array 1 4\n0 a 1 0 1\n"] * 200, "--snap", "100")
        self.assertEqual((number, status, last), (51, 7, "limit snap"))
        self.rebuilt()
        self.runs("array 1 4\n0 a 1 0 1\n", "--snap", "100")
        self.assertEqual(self.rows(), "1 0 51\n")

    def test_ascending_keys_in_runs(self):
        """Twenty a run: each run puts pages in the place of the last leaf, so the way there is one page longer."""
        scripts = ["tree 1\n" + "".join(f"0 w 1 {20 * run + key} 1\n" for key in range(20)) for run in range(40)]
        number, status, last = self.until_limit(scripts)
        self.assertEqual((number, status, last), (33, 7, "limit height"))
        self.assertIn("left: 0 levels of 32, of tree 1", self.tool("vault_stat.py")[1])
        self.rebuilt()
        self.assertIn("left: 29 levels of 32, of tree 1", self.tool("vault_stat.py")[1])
        self.runs(scripts[number - 1])
        self.assertEqual(len(self.rows().splitlines()), 660)

    def test_mixed_keys_in_runs(self):
        """As many in mixed order: no run ends in a limit."""
        keys = list(range(800))
        random.Random(5).shuffle(keys)
        scripts = ["tree 1\n" + "".join(f"0 w 1 {key} 1\n" for key in keys[at : at + 20]) for at in range(0, 800, 20)]
        self.assertEqual(self.until_limit(scripts, "--snap", "65536"), None)

    def test_ascending_keys_in_one_run(self):
        told = self.runs("tree 1\n" + "".join(f"0 w 1 {key} 1\n" for key in range(1040)))
        wide = [line for line in told.splitlines() if line.endswith(" wide")]
        self.assertEqual(wide, [f"0.{key} wide" for key in range(1032, 1040)])
        self.runs("tree 1\n" + "".join(f"0 w 1 {key} 1\n" for key in range(1032, 1040)))

    def test_worn_out_epochs(self):
        """Each `k epoch` takes one for good."""
        script = "array 1 4\n0 w 1 0 7\njoin\n" + ("k epoch\n" * 65000 + "join\n") * 17
        status, told, _ = self.foedus("run", "--brief", text=script)
        self.assertEqual((status, told.splitlines()[-1]), (7, "limit epoch"))
        self.rebuilt()
        self.assertRegex(self.tool("vault_stat.py")[1], "(?m)^left: 104857[0-9] epochs of 1048574$")
        self.runs("array 1 4\n0 a 1 0 1\n")
        self.assertEqual(self.rows(), "1 0 8\n")

    def test_a_large_tree(self):
        """Keys of several runs come out level, and arrays and an empty tree beside them."""
        rows = [f"1 {key} {key + 1}\n" for key in range(0, 5000, 3)]
        rows += [f"2 {key * 7919} {key}\n" for key in range(20_000)]
        with open(f"{self.folder}/dump", "w", encoding="ascii") as file:
            file.write("epoch 1\n" + "".join(rows))
        declared = [word for text in ("array 1 5000", "tree 2", "tree 9") for word in ("--declare", text)]
        status, _, errors = self.tool("load.py", *declared, "--run", PROGRAM, "dump")
        self.assertEqual((status, errors), (0, ""))
        os.remove(f"{self.folder}/dump")
        self.assertEqual(self.rows(), "".join(rows))
        self.rebuilt()
        self.assertRegex(self.tool("vault_stat.py")[1], "(?m)^left: 2[78] levels of 32, of tree 2$")


class Inputs(Ways):
    def test_an_empty_script(self):
        """It makes a database without storages, and that takes no other script."""
        self.runs("")
        status, told, _ = self.foedus("run", text="array 1 4\n0 w 1 0 1\n")
        self.assertEqual((status, told), (1, "shape declared 1:4 kept .\n"))
        status, _, errors = self.tool("rebuild", "--yes")
        self.assertEqual((status, "remove it" in errors), (1, True), errors)

    def test_a_load_that_fails(self):
        """What stands behind it in a pipe gets no script that it would take."""
        command = f'"{sys.executable}" "{TOP}/tools/load.py" --declare "array 1 4" none.txt | "{PROGRAM}" run'
        status, told, errors = answer(self.folder, ["sh", "-c", command])
        self.assertEqual((status, told), (1, "script 1 Word\n"), errors)
        self.runs("array 1 4\n0 w 1 0 1\n")

    def test_a_load_into_the_database_it_reads(self):
        """A pipe's run has the database already; by --run the lock is given back before."""
        self.runs("array 1 4\n0 w 1 0 1\n")
        with open(f"{self.folder}/dump", "w", encoding="ascii") as file:
            file.write("epoch 1\n1 2 9\n")
        status, _, errors = self.tool("load.py", "--vault", "vault", "--run", PROGRAM, "dump")
        self.assertEqual((status, errors), (0, ""))
        self.assertEqual(self.rows(), "1 0 1\n1 2 9\n")


class Busy(Ways):
    def test_conflicts(self):
        """Beside busy processes no line is lost, with enough tries."""
        script = self.foedus("make", "7", "8", "65536")[1]
        others = [subprocess.Popen([sys.executable, "-c", "while True: pass"]) for _ in range(8)]
        try:
            told = self.runs(script, "--tries", "1000000", "--brief")
        finally:
            for other in others:
                other.kill()
                other.wait()
        self.assertEqual(told, "commits 65536\ntotal 131072\ndurable 1\n")

    def test_another_has_the_database(self):
        self.runs("array 1 4\n0 w 1 0 1\n")
        with open(f"{self.folder}/vault/save", "rb") as save:
            fcntl.flock(save, fcntl.LOCK_EX)
            status, told, errors = self.foedus("run", text="array 1 4\n")
            self.assertEqual((status, told, "another process" in errors), (5, "device save\n", True), errors)
            for words in (["rebuild", "--yes"], ["backup", "copy"], ["vault_stat.py"], ["load.py", "--vault", "vault"]):
                status, _, errors = self.tool(*words)
                self.assertEqual((status, "another process has the database" in errors), (1, True), errors)
        self.assertEqual(os.listdir(self.folder), ["vault"])


class Copies(Ways):
    def test_a_backup(self):
        self.runs("array 1 400\ntree 2\n" + "".join(f"{n % 8} w 1 {n} {n}; w 2 {n} 1\n" for n in range(400)))
        status, told, errors = self.tool("backup", "copy")
        self.assertEqual((status, errors, "18 files" in told), (0, "", True), told)
        self.assertEqual(self.rows(f"{self.folder}/copy"), self.rows())
        status, _, errors = self.tool("backup", "copy")
        self.assertEqual((status, "it is there already" in errors), (1, True))
        script = "array 1 400\ntree 2\n0 w 2 9 7\n"
        self.assertEqual(self.foedus("run", text=script, folder=f"{self.folder}/copy")[0], 0)

    def test_a_backup_of_damage(self):
        self.runs("array 1 4\n0 w 1 0 1\n")
        os.truncate(f"{self.folder}/vault/save", 100)
        status, told, errors = self.tool("backup", "copy")
        self.assertEqual((status, told, "damaged save 0" in errors), (1, "", True), errors)
        self.assertEqual(os.listdir(self.folder), ["vault"])


class Stops(Ways):
    def test_killed_rebuilds(self):
        """However it is stopped, a whole database has the name, and the next rebuild goes on from there."""
        self.runs("tree 1\n" + "".join(f"{n % 8} w 1 {n * 7919 % 1009} {n}\n" for n in range(1009)), "--slots", "4096")
        before, draw = self.rows(), random.Random(3)
        command = [sys.executable, f"{TOP}/tools/rebuild", "--program", PROGRAM, "--yes"]
        begun = time.monotonic()
        self.assertEqual(answer(self.folder, command)[0], 0)
        longest = 1.2 * (time.monotonic() - begun)
        for _ in range(KILLS):
            process = subprocess.Popen(command, cwd=self.folder, stdout=subprocess.DEVNULL, stderr=subprocess.DEVNULL,
                                       start_new_session=True)
            time.sleep(draw.random() * longest)
            os.killpg(process.pid, signal.SIGKILL)
            process.wait()
            self.assertEqual(self.rows(), before)
        self.assertEqual(answer(self.folder, command)[0], 0)
        self.assertEqual(self.rows(), before)
        names = {name.split("-")[0] for name in os.listdir(self.folder)}
        self.assertEqual(names, {"vault", "vault.before"})

    def test_stops_at_each_rename(self):
        """Killed as it makes each of its calls that change a name."""
        if shutil.which("strace") is None:
            self.skipTest("there is no strace")
        self.runs("array 1 4\n0 w 1 0 1\n")
        command = [sys.executable, f"{TOP}/tools/rebuild", "--program", PROGRAM, "--yes"]
        for calls in ("renameat2", "rename", "unlink,unlinkat", "fsync"):
            for when in range(1, 40, 8 if calls == "fsync" else 1):
                trace = ["strace", "-o", "/dev/null", "-e", f"trace={calls}", "-e",
                         f"inject={calls}:signal=KILL:when={when}"]
                status = answer(self.folder, [*trace, *command])[0]
                self.assertEqual(self.rows(), "1 0 1\n")
                if status == 0:
                    break
        self.assertEqual(answer(self.folder, command)[0], 0)
        self.assertEqual(self.rows(), "1 0 1\n")
        self.assertFalse(os.path.exists(f"{self.folder}/vault.rebuild"))
        self.assertFalse(os.path.exists(f"{self.folder}/vault/is-a-draft"))

    def test_no_exchange(self):
        if shutil.which("strace") is None:
            self.skipTest("there is no strace")
        self.runs("array 1 4\n0 w 1 0 1\n")
        trace = ["strace", "-o", "/dev/null", "-e", "trace=renameat2", "-e", "inject=renameat2:error=EINVAL"]
        command = [*trace, sys.executable, f"{TOP}/tools/rebuild", "--program", PROGRAM, "--yes"]
        status, _, errors = answer(self.folder, command)
        self.assertEqual((status, "has no exchange of names" in errors), (1, True), errors)
        self.assertEqual((os.listdir(self.folder), self.rows()), (["vault"], "1 0 1\n"))


if __name__ == "__main__":
    if len(sys.argv) < 2 or {"-h", "--help"} & set(sys.argv):
        print(__doc__)
        sys.exit(len(sys.argv) < 2)
    PROGRAM = os.path.abspath(sys.argv.pop(1))
    unittest.main()
