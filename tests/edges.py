#!/usr/bin/env python3
"""Tries the edges of the program: streams that are closed, a second process, files that can't be had, what it explains.

    tests/edges.py PROGRAM

Each test runs in a folder of its own, which is removed. A test that the system doesn't allow is left out, and told.
The status is 0 where all others hold.
"""
import fcntl
import os
import pty
import re
import resource
import shutil
import signal
import socket
import stat
import subprocess
import sys
import tempfile
import time

SCRIPT = b"array 1 4\n0 w 1 2 8\n"
PRINTED = b"0.0 ok 1:1\ndurable 1\n"
KEPT = b"epoch 1\n1 2 8\n"
SNAPSHOTS = b"snap 0 at 1\n"
NOBODY = 65534
LOGS = [f"bank{number}" for number in range(16)]
# The calls that open the database, with a script for the first of them.
OPENING = ["run"], ["dump"], ["snaps"], ["snap", "0"]


class LeftOut(Exception):
    """The system doesn't allow this test."""


def run(words, script=b"", **more):
    """The status, what was printed, and what was told on standard error."""
    if "stdin" not in more:
        more["input"] = script
    done = subprocess.run([PROGRAM, *words], stdout=subprocess.PIPE, stderr=subprocess.PIPE, timeout=60, **more)
    return done.returncode, done.stdout, done.stderr.decode("utf-8", "replace")


def check(came, status, printed, *told):
    """Compares an answer; each text of `told` stands on standard error, which is empty where there is none."""
    assert came[0] == status, f"status {came[0]}, not {status}: {came}"
    assert came[1] == printed, f"printed {came[1]!r}, not {printed!r}"
    for text in told:
        assert text in came[2], f"{text!r} isn't told: {came[2]!r}"
    assert told or came[2] == "", f"told {came[2]!r}"


def files(folder="vault"):
    """What a folder's files hold, and when they were changed last; of other kinds what they are."""
    found = {}
    for name in sorted(os.listdir(folder)):
        path = os.path.join(folder, name)
        known = os.lstat(path)
        found[name] = (known.st_mode, known.st_mtime_ns)
        if stat.S_ISREG(known.st_mode):
            with open(path, "rb") as file:
                found[name] = (file.read(), known.st_mtime_ns)
    return found


def write(path, content=b""):
    with open(path, "wb") as file:
        file.write(content)


def text_in(name):
    with open(name, encoding="utf-8") as file:
        return file.read()


def keep_one():
    check(run(["run"], SCRIPT), 0, PRINTED)


def wait_until_locked():
    for _ in range(1000):
        try:
            with open("vault/save", "rb") as file:
                fcntl.flock(file, fcntl.LOCK_EX | fcntl.LOCK_NB)
        except BlockingIOError:
            return
        except FileNotFoundError:
            pass
        time.sleep(0.01)
    raise AssertionError("the first process takes no lock")


def start_run():
    return subprocess.Popen([PROGRAM, "run"], stdin=subprocess.PIPE, stdout=subprocess.PIPE, stderr=subprocess.PIPE)


def wait_until_reading(process):
    """Waits until a process reads its standard input: by then a run has made all files ready. Where the system doesn't
    tell what a process waits for, it gets a second for that."""
    for _ in range(600):
        try:
            with open(f"/proc/{process.pid}/syscall", encoding="ascii") as file:
                if file.read().startswith("0 0x0 "):
                    return
        except OSError:
            time.sleep(1)
            return
        time.sleep(0.05)
    raise AssertionError("a run doesn't read its script")


def holder():
    """A run that has the database open and waits for its script."""
    first = start_run()
    wait_until_locked()
    wait_until_reading(first)
    return first


def by_shell(command, script=SCRIPT):
    return subprocess.run(["sh", "-c", command, PROGRAM], input=script, stdout=subprocess.PIPE, stderr=subprocess.PIPE,
                          timeout=60)


# ---- streams that are closed


def a_closed_output_is_no_file_of_the_database():
    done = by_shell('exec "$0" run >&-')
    assert done.returncode == 4, done
    assert b"Standard output failed" in done.stderr, done
    assert len(files()["save"][0]) == 1024
    status, printed, told = run(["dump"])
    assert (status, told) == (0, "") and printed in (b"epoch 0\n", KEPT), (status, printed, told)


def a_closed_output_of_a_kept_database():
    keep_one()
    assert by_shell('exec "$0" run >&-', b"array 1 4\n0 r 1 2\n").returncode == 4
    assert by_shell('exec "$0" dump >&-').returncode == 4
    assert by_shell('exec "$0" dump >&- 2>&-').returncode == 4
    status, printed, told = run(["dump"])
    assert (status, told) == (0, "") and printed.endswith(b"\n1 2 8\n"), (status, printed, told)


def a_closed_input_is_no_script():
    keep_one()
    done = by_shell('exec "$0" run <&-')
    assert (done.returncode, done.stdout) == (3, b"read\n"), done
    check(run(["dump"]), 0, KEPT)


def all_streams_closed():
    keep_one()
    assert by_shell('exec "$0" run <&- >&- 2>&-').returncode in (3, 4)
    assert by_shell('exec "$0" dump <&- >&- 2>&-').returncode == 4
    check(run(["dump"]), 0, KEPT)


def closed_errors_are_no_file_of_the_database():
    keep_one()
    done = by_shell('exec "$0" run 2>&-', b"no script\n")
    assert (done.returncode, done.stdout) == (1, b"script 1 Word\n"), done
    check(run(["dump"]), 0, KEPT)


# ---- more than one process


def a_second_process_is_refused():
    first = holder()
    before = files()
    for words in (["run"], ["run", "--brief"], ["dump"], ["snaps"], ["snap", "0"]):
        check(run(words, SCRIPT), 5, b"device save\n", "another process", "vault/save")
    assert files() == before, "the second process changed files"
    check(run(["make", "1", "1", "1"]), 0, run(["make", "1", "1", "1"])[1])
    printed, told = first.communicate(SCRIPT, timeout=60)
    assert (first.returncode, printed, told) == (0, PRINTED, b""), (first.returncode, printed, told)
    check(run(["dump"]), 0, KEPT)


def a_killed_process_frees_its_lock():
    keep_one()
    first = holder()
    first.kill()
    first.wait()
    check(run(["dump"]), 0, KEPT)
    check(run(["run"], b"array 1 4\n0 r 1 2\n"), 0, b"0.0 ok 2:1 8\ndurable 2\n")


def two_may_read_at_once():
    keep_one()
    with open("vault/save", "rb") as file:
        fcntl.flock(file, fcntl.LOCK_SH)
        check(run(["dump"]), 0, KEPT)
        check(run(["snaps"]), 0, SNAPSHOTS)
        check(run(["run"], SCRIPT), 5, b"device save\n", "another process")
    check(run(["run"], b"array 1 4\n"), 0, b"durable 2\n")


def one_of_two_makes_the_database():
    for _ in range(20):
        shutil.rmtree("vault", ignore_errors=True)
        both = [start_run() for _ in range(2)]
        came = [one.communicate(b"array 1 4\n0 a 1 2 1\n", timeout=60) for one in both]
        done = sum(one.returncode == 0 for one in both)
        assert done >= 1, came
        for one, (printed, _told) in zip(both, came):
            assert one.returncode == 0 or (one.returncode, printed) == (5, b"device save\n"), came
        check(run(["dump"]), 0, b"epoch %d\n1 2 %d\n" % (done, done))


# ---- files that can't be had


def check_refused(name, *told):
    """Each call that opens the database tells that this file can't be had, and changes none; what errors had last."""
    before = files()
    for words in OPENING:
        came = run(words, SCRIPT)
        check(came, 5, b"device %s\n" % name.encode(), *told)
    assert files() == before, f"files were changed: {before.keys()}, {files().keys()}"
    return came[2]


def do_as_told(told):
    """Gives the shell the command that stands in brackets in a text of errors."""
    subprocess.run(["sh", "-c", re.search(r"\((mv .*)\)", told)[1]], check=True)


def a_missing_save_is_no_new_database():
    keep_one()
    os.remove("vault/save")
    told = check_refused("save", "vault/save is missing", "put back a copy")
    assert "has a savepoint" not in told, told


def each_file_with_bytes_wants_a_save():
    for name in ["snaps"] + LOGS:
        shutil.rmtree("vault", ignore_errors=True)
        os.mkdir("vault")
        write(os.path.join("vault", name), b"x")
        check_refused("save", "vault/save is missing")


def a_savepoint_under_another_name_is_told():
    for name in ("save.new", "old.bak", "a copy"):
        shutil.rmtree("vault", ignore_errors=True)
        keep_one()
        os.rename("vault/save", f"vault/{name}")
        told = check_refused("save", "vault/save is missing", f"vault/{name} has a savepoint")
        do_as_told(told)
        check(run(["dump"]), 0, KEPT)


def a_file_without_a_savepoint_is_not_named():
    """Under the savepoint's name it would be that of a new database, and the next run would cut the log files."""
    keep_one()
    shutil.move("vault/save", "kept")
    write("vault/closed", bytes(1024))
    write("vault/long", b"\xa5" * 1500)
    os.mkfifo("vault/pipe")
    os.symlink("../kept", "vault/link")
    told = check_refused("save", "vault/save is missing")
    assert "has a savepoint" not in told, told


def a_stop_within_the_making_leaves_a_new_database():
    os.mkdir("vault")
    drafts = {"save.new": b"\xa5" * 1500, "save.new1": bytes(1024)}
    for name, content in drafts.items():
        write(os.path.join("vault", name), content)
    write("vault/bank0")
    keep_one()
    kept = files()
    assert sorted(kept) == sorted(["save", "snaps", *drafts, *LOGS]), kept.keys()
    for name, content in drafts.items():
        assert kept[name][0] == content, f"{name} was changed"
    check(run(["dump"]), 0, KEPT)


def a_draft_follows_no_link():
    os.mkdir("vault")
    write("elsewhere", b"another's")
    os.symlink("../elsewhere", "vault/save.new")
    os.symlink("../nowhere", "vault/save.new1")
    keep_one()
    with open("elsewhere", "rb") as file:
        assert file.read() == b"another's", "a file elsewhere was changed"
    assert not os.path.exists("nowhere"), "a file was made elsewhere"
    assert os.path.islink("vault/save.new") and os.path.islink("vault/save.new1"), os.listdir("vault")
    check(run(["dump"]), 0, KEPT)


def a_making_that_fails_leaves_no_draft():
    """A file may get 512 bytes, and a savepoint's has 1,024."""

    def limit():
        signal.signal(signal.SIGXFSZ, signal.SIG_IGN)
        resource.setrlimit(resource.RLIMIT_FSIZE, (512, 512))

    for _ in range(3):
        came = run(["dump"], preexec_fn=limit, restore_signals=False)
        check(came, 5, b"device save\n", "vault/save: File too large")
    assert sorted(files()) == sorted(["snaps", *LOGS]), files().keys()
    keep_one()


def who_makes_a_database_keeps_others_away():
    os.mkdir("vault")
    with open("vault/snaps", "wb") as file:
        fcntl.flock(file, fcntl.LOCK_EX)
        check_refused("save", "vault/save: another process")
    keep_one()


def a_new_database_is_told_where_one_was_asked_for():
    for words, printed in ((["dump"], b"epoch 0\n"), (["snaps"], b"")):
        check(run(words), 0, printed, "there was no database in the folder vault")
        check(run(words), 0, printed)
        shutil.rmtree("vault")
    check(run(["snap", "0"]), 9, b"no snapshot 0\n", "there was no database in the folder vault")


def by_nobody():
    """The program, and a user of whom the system asks permissions."""
    if os.geteuid() != 0:
        return PROGRAM, {}
    here = os.getcwd()
    os.chmod(here, 0o755)
    program = shutil.copy(PROGRAM, os.path.join(here, "program"))
    os.chmod(program, 0o755)
    return program, {"user": NOBODY, "group": NOBODY}


def a_copy_that_cannot_be_written_is_read():
    keep_one()
    program, as_user = by_nobody()
    for name in os.listdir("vault"):
        os.chmod(os.path.join("vault", name), 0o444)
    os.chmod("vault", 0o555)
    before = files()

    def ask(words, script=b""):
        done = subprocess.run([program, *words], input=script, stdout=subprocess.PIPE, stderr=subprocess.PIPE,
                              timeout=60, **as_user)
        return done.returncode, done.stdout, done.stderr.decode()

    check(ask(["dump"]), 0, KEPT)
    check(ask(["snaps"]), 0, SNAPSHOTS)
    check(ask(["run"], SCRIPT), 5, b"device save\n", "Permission denied")
    assert files() == before, "files were changed"
    os.chmod("vault", 0o755)


def a_folder_around_that_cannot_be_read_is_passed_over():
    """So its names can't be synced: only the call that makes the folder has to."""
    program, as_user = by_nobody()
    os.mkdir("around")
    os.chmod("around", 0o333)

    def ask(script):
        done = subprocess.run([program, "run"], input=script, stdout=subprocess.PIPE, stderr=subprocess.PIPE,
                              timeout=60, cwd="around", **as_user)
        return done.returncode, done.stdout, done.stderr.decode()

    check(ask(SCRIPT), 5, b"device save\n", "vault/save: Permission denied")
    check(ask(SCRIPT), 0, PRINTED)
    check(ask(b"array 1 4\n0 r 1 2\n"), 0, b"0.0 ok 2:1 8\ndurable 2\n")
    os.chmod("around", 0o755)


def a_full_disk_is_told():
    lines = b"".join(b"0 w 1 %d 1\n" % n for n in range(1000))

    def limit():
        signal.signal(signal.SIGXFSZ, signal.SIG_IGN)
        resource.setrlimit(resource.RLIMIT_FSIZE, (8192, 8192))

    came = run(["run", "--brief"], b"array 1 1000\n" + lines, preexec_fn=limit, restore_signals=False)
    check((came[0], came[1][-13:], came[2]), 5, b"device bank0\n", "vault/bank0: File too large")
    check(run(["dump"]), 0, b"epoch 0\n")


def with_failing(call, error, names, words, script=b""):
    """The answer of a run to which the system refuses these calls on these files."""
    if shutil.which("strace") is None:
        raise LeftOut("there is no strace")
    paths = [part for name in names for part in ("-P", os.path.realpath(os.path.join("vault", name)))]
    traced = ["strace", "-f", "-o", "calls", *paths, "-e", f"trace={call}", "-e", f"inject={call}:error={error}"]
    done = subprocess.run([*traced, PROGRAM, *words], input=script, stdout=subprocess.PIPE, stderr=subprocess.PIPE,
                          timeout=60)
    if "(INJECTED)" not in text_in("calls"):
        raise LeftOut("strace can't refuse calls here")
    return done.returncode, done.stdout, done.stderr.decode("utf-8", "replace")


def a_device_without_room_is_told():
    """The system's file that is always full stands for standard output; a worker's log files get no room."""
    if not os.path.exists("/dev/full"):
        raise LeftOut("there is no /dev/full")
    keep_one()
    with open("/dev/full", "wb") as full:
        done = subprocess.run([PROGRAM, "dump"], stdout=full, stderr=subprocess.PIPE, timeout=60)
    assert done.returncode == 4 and b"Standard output failed" in done.stderr, done
    came = with_failing("pwrite64", "ENOSPC", ["bank0", "bank1"], ["run"], b"array 1 4\n0 w 1 3 9\n")
    assert came[0] == 5 and came[1].endswith((b"device bank0\n", b"device bank1\n")), came
    assert re.search("vault/bank[01]: No space left on device", came[2]), came
    status, printed, told = run(["dump"])
    assert (status, told) == (0, "") and printed.endswith(b"\n1 2 8\n"), (status, printed, told)


def a_file_that_cannot_be_looked_at_is_told():
    keep_one()
    for name in ("save", "snaps", "bank5"):
        for words in (["run"], ["dump"]):
            came = with_failing("statx", "EIO", [name], words, SCRIPT)
            check(came, 5, b"device %s\n" % name.encode(), f"vault/{name}: Input/output error")
    check(run(["dump"]), 0, KEPT)


def a_disk_that_fills_up_is_told():
    """A file system of 2 MiB in memory, which the test alone sees, takes a first round and not the log of a second."""
    with open("script", "wb") as file:
        file.write(b"array 1 4\n0 w 1 2 8\njoin\n" + b"0 w 1 3 1\n" * 60000)
    os.mkdir("disk")
    steps = (
        "mount -t tmpfs -o size=2m none disk",
        "touch mounted",
        "cd disk",
        '{ "$0" run --brief <../script >../printed 2>../told; echo $? >../status; }',
        'exec "$0" dump',
    )
    apart = ["unshare", "--mount"] if os.geteuid() == 0 else ["unshare", "--mount", "--map-root-user"]
    try:
        done = subprocess.run([*apart, "sh", "-c", " && ".join(steps), PROGRAM], stdout=subprocess.PIPE,
                              stderr=subprocess.PIPE, timeout=60)
    except FileNotFoundError:
        raise LeftOut("there is no unshare") from None
    if not os.path.exists("mounted"):
        raise LeftOut("no disk may be mounted here")
    came = int(text_in("status")), text_in("printed")[-13:], text_in("told")
    # behind the first round the log files have changed sides
    check(came, 5, "device bank1\n", "vault/bank1: No space left on device")
    check((done.returncode, done.stdout, done.stderr.decode()), 0, KEPT)


def put_in_place(kind, path):
    """Puts something else in the place of a file."""
    os.remove(path)
    if kind == "folder":
        os.mkdir(path)
    elif kind == "pipe":
        os.mkfifo(path)
    elif kind == "link":
        os.symlink("bank2", path)
    elif kind == "link to nowhere":
        os.symlink("nowhere", path)
    elif kind == "device":
        os.mknod(path, stat.S_IFCHR | 0o600, os.makedev(1, 7))
    else:
        with socket.socket(socket.AF_UNIX) as end:
            end.bind(path)


def what_is_no_file_is_told():
    for kind in ("folder", "pipe", "link", "link to nowhere", "socket", "device"):
        for name in ("save", "snaps", "bank5"):
            shutil.rmtree("vault", ignore_errors=True)
            keep_one()
            try:
                put_in_place(kind, os.path.join("vault", name))
            except PermissionError:
                continue
            check_refused(name, f"vault/{name} is no regular file")
    shutil.rmtree("vault")
    write("vault")
    for words in OPENING:
        check(run(words, SCRIPT), 5, b"device save\n", "vault/save: Not a directory")


def what_is_no_file_is_told_before_a_database_is_made():
    os.makedirs("vault/bank5")
    check_refused("bank5", "vault/bank5 is no regular file")


def two_names_of_one_file_are_told():
    keep_one()
    os.remove("vault/bank2")
    os.link("vault/bank0", "vault/bank2")
    check_refused("bank2", "vault/bank2 and vault/bank0 are two names of one file")


def a_copy_by_hard_links_is_only_read():
    """A run over it would change both, and the lock is on the savepoint's file alone."""
    keep_one()
    shutil.copytree("vault", "other", copy_function=os.link)
    before = files()
    check(run(["dump"]), 0, KEPT)
    check(run(["snaps"]), 0, SNAPSHOTS)
    came = run(["run"], SCRIPT)
    check(came, 5, b"device save\n", "vault/save has another name")
    do_as_told(came[2])
    check(run(["run"], b"array 1 4\n0 w 1 2 9\n"), 0, b"0.0 ok 2:1\ndurable 2\n")
    assert files("other") == before, "the other copy was changed"
    os.link("vault/bank3", "one log file")
    before = files()
    check(run(["dump"]), 0, b"epoch 2\n1 2 9\n")
    check(run(["run"], SCRIPT), 5, b"device bank3\n", "vault/bank3 has another name")
    assert files() == before, "files were changed"


def damage_is_told():
    keep_one()
    with open("vault/save", "r+b") as file:
        file.seek(16)
        file.write(b"\xff")
    came = run(["dump"])
    check(came, 6, b"damaged save 0\n", "doesn't hold what this program writes")


# ---- texts


def the_refused_word_is_told():
    for words, told in (
        ([], "a command is missing"),
        (["walk"], "`walk` is no command"),
        (["dump", "x"], "`x` is one word too many"),
        (["snap"], "the number for EPOCH is missing"),
        (["snap", "1048576"], "`1048576` is no number from 0 to 1048575 for EPOCH"),
        (["make", "1", "9", "3"], "`9` is no number from 1 to 8 for WORKERS"),
        (["make", "1", "2", "3", "4"], "`4` is one word too many"),
        (["run", "--tries"], "the number for --tries is missing"),
        (["run", "--tries", "0"], "`0` is no number from 1 to 1000000 for --tries"),
        (["run", "--brief", "--snap", "x\x1b"], "`x\\x1b` is no number"),
        (["run", "--slots=3"], "`3` is no number from 4 to 4096 for --slots"),
        (["run", "--brief", "--brief"], "`--brief` stands there twice"),
        (["run", "--trees", "5"], "`--trees` is no option of run"),
        (["run", "x" * 1000], "x" * 200 + ".."),
    ):
        check(run(words), 2, b"usage\n", told, "foedus run [--tries N]", "k glean", "5  device NAME")
    for words in (["--help"], ["run", "-h"]):
        came = run(words)
        check(came, 2, b"usage\n", "foedus run [--tries N]")
        assert came[2].startswith("foedus runs"), came[2]
    check(run([b"\xff"]), 2, b"usage\n", "a word isn't UTF-8 text")
    assert os.listdir(".") == [], "refused words made files"


def the_faulty_line_is_told():
    for script, printed, *told in (
        (b"array 1 4\n0 q 1 2\n", b"script 2 Word\n", "line 2 is: 0 q 1 2\n", "Word: "),
        (b"array 1 4\r\n", b"script 1 Number\n", "line 1 is: array 1 4\\r\n", "carriage return"),
        (b"array 1 4\n0 r 1 02\n", b"script 2 Number\n", "line 2 is: 0 r 1 02\n", "without a leading zero"),
        (b"array 1 4\n0 r 1 4\n", b"script 2 Range\n", "line 2 is: 0 r 1 4\n", "Range: "),
        (b"array 1 4\n0 r 2 1\n", b"script 2 Declared\n", "Declared: "),
        (b"array 1 4\n0 d 1 1\n", b"script 2 Kind\n", "Kind: "),
        (b"array 1 4\n0 r 1 1" + b"; r 1 1" * 16 + b"\n", b"script 2 TooMany\n", "TooMany: "),
        (b"array 1 4\n0 r 1 1\n\x1b[2J\xff\n", b"script 3 Word\n", "line 3 is: \\x1b[2J\\xff\n"),
        (b"x" * 2000, b"script 1 TooLong\n", "line 1 is: " + "x" * 200 + "..\n", "1024 bytes"),
    ):
        came = run(["run"], script)
        check(came, 1, printed, *told, "Nothing was run")
        kinds = ("TooLong: ", "Word: ", "Number: ", "TooMany: ", "Declared: ", "Kind: ", "Range: ")
        assert sum(kind in came[2] for kind in kinds) == 1, came[2]
    keep_one()
    check(run(["run"], b"array 1 5\n"), 1, b"shape declared 1:5 kept 1:4\n", "has other storages")


def a_faulty_line_far_down():
    lines = b"0 r 1 1\n" * 60000 + b"join\n"
    script = b"array 1 4\n" + lines * 3 + b"oh\n"
    check(run(["run"], script), 1, b"script 180005 Word\n", "beyond the first mebibyte", "Nothing was run")


def a_typed_script_is_told():
    outer, inner = pty.openpty()
    first = subprocess.Popen([PROGRAM, "run"], stdin=inner, stdout=subprocess.PIPE, stderr=subprocess.PIPE)
    os.close(inner)
    os.write(outer, SCRIPT + b"\x04")
    printed, told = first.communicate(timeout=60)
    os.close(outer)
    assert (first.returncode, printed) == (0, PRINTED), (first.returncode, printed, told)
    assert b"reading the script from the terminal" in told, told


# ---- what the system is asked for


def calls_of(words, script=b"", more=""):
    """The system calls of a run that succeeded, as strace prints them with the paths of descriptors."""
    if shutil.which("strace") is None:
        raise LeftOut("there is no strace")
    traced = ["strace", "-f", "-y", "-o", "calls", "-e",
              f"trace=openat,fsync,fdatasync,rename,renameat,renameat2,mkdir,mkdirat,flock{more}", PROGRAM, *words]
    done = subprocess.run(traced, input=script, stdout=subprocess.PIPE, stderr=subprocess.PIPE, timeout=60)
    with open("calls", encoding="utf-8", errors="replace") as file:
        calls = file.read().splitlines()
    os.remove("calls")
    if not any("openat(" in call for call in calls):
        raise LeftOut("strace isn't allowed here")
    assert done.returncode == 0, done
    return calls


def index_of(calls, *parts, after=-1):
    for index, call in enumerate(calls):
        if index > after and all(part in call for part in parts):
            return index
    raise AssertionError(f"no call with {parts} after {after} in {calls}")


def a_new_database_is_synced_before_it_has_its_name():
    calls = calls_of(["dump"])
    alone = index_of(calls, "flock(", "/vault/snaps>", "LOCK_EX")
    drafted = index_of(calls, "openat(", "save.new", "O_EXCL", after=alone)
    locked = index_of(calls, "flock(", "/vault/save.new>", "LOCK_EX", after=drafted)
    written = index_of(calls, "sync(", "/vault/save.new>", after=locked)
    made = index_of(calls, "openat(", "bank15", "O_CREAT")
    names = index_of(calls, "sync(", "/vault>", after=max(written, made))
    named = index_of(calls, "rename", "save.new", after=names)
    kept = index_of(calls, "sync(", "/vault>", after=named)
    around = index_of(calls, "sync(", f"<{os.path.realpath('.')}>", after=index_of(calls, "mkdir"))
    assert around < named, calls
    assert sum("sync(" in call for call in calls[:kept + 1]) <= 4, calls


def a_run_syncs_all_names_before_it_changes_anything():
    """A process that died may have made or named some, and have synced none; nobody synced those of a copy."""
    keep_one()
    calls = calls_of(["run"], b"array 1 4\n", ",pwrite64,ftruncate")
    names = index_of(calls, "sync(", "/vault>")
    around = index_of(calls, "sync(", f"<{os.path.realpath('.')}>")
    changed = [index for index, call in enumerate(calls) if re.search(r"\b(pwrite64|ftruncate)\(", call)]
    assert max(names, around) < min(changed), calls


def a_file_that_was_missing_stays():
    keep_one()
    os.remove("vault/bank7")
    calls = calls_of(["dump"])
    made = index_of(calls, "openat(", "bank7", "O_CREAT|O_EXCL")
    index_of(calls, "sync(", "/vault>", after=made)


def what_is_told_durable_was_synced():
    calls = calls_of(["run"], SCRIPT, ",pwrite64,write")
    told = index_of(calls, "write(1<", "durable 1")
    written, waits = set(), set()
    for call in calls[:told]:
        found = re.search(r"\b(pwrite64|fsync|fdatasync)\(\d+<[^>]*/vault/([^>]*)>", call)
        if found and found[1] == "pwrite64":
            written.add(found[2])
            waits.add(found[2])
        elif found:
            waits.discard(found[2])
    assert {"save", "snaps"} < written and not waits, (written, waits, calls)


def a_glean_without_threads_waits_for_nobody():
    """Where no thread can be had, the mappers run before the reducers, which else ask a million times in vain."""
    if shutil.which("strace") is None:
        raise LeftOut("there is no strace")
    script = b"array 1 40\n0 w 1 2 7\n0 w 1 9 8\njoin\nk glean\njoin\n0 r 1 9\n"
    alike = run(["run"], script)
    assert alike[0] == 0 and b"\nk.0 snap 1 new " in alike[1], alike
    os.rename("vault", "before")
    traced = ["strace", "-f", "-o", "calls", "-e", "trace=clone,clone3,sched_yield",
              "-e", "inject=clone,clone3:error=EAGAIN:when=1+", PROGRAM, "run"]
    try:
        done = subprocess.run(traced, input=script, stdout=subprocess.PIPE, stderr=subprocess.PIPE, timeout=60)
    except subprocess.TimeoutExpired:
        raise AssertionError("a run without threads goes on for a minute") from None
    calls = text_in("calls").splitlines()
    if not any("clone" in call and "(INJECTED)" in call for call in calls):
        raise LeftOut("no thread can be refused here")
    check((done.returncode, done.stdout, done.stderr.decode()), *alike[:2])
    yields = sum("sched_yield(" in call for call in calls)
    assert yields < 1000, f"{yields} times the core was given away"


def no_file_has_the_place_of_a_stream():
    calls = calls_of(["run"], SCRIPT)
    for call in calls:
        if "/vault/" in call and "openat(" in call and "= -1" not in call:
            place = int(call.rsplit("= ", 1)[1].split("<")[0])
            assert place > 2, call


TESTS = [
    a_closed_output_is_no_file_of_the_database,
    a_closed_output_of_a_kept_database,
    a_closed_input_is_no_script,
    all_streams_closed,
    closed_errors_are_no_file_of_the_database,
    a_second_process_is_refused,
    a_killed_process_frees_its_lock,
    two_may_read_at_once,
    one_of_two_makes_the_database,
    a_missing_save_is_no_new_database,
    each_file_with_bytes_wants_a_save,
    a_savepoint_under_another_name_is_told,
    a_file_without_a_savepoint_is_not_named,
    a_stop_within_the_making_leaves_a_new_database,
    a_draft_follows_no_link,
    a_making_that_fails_leaves_no_draft,
    who_makes_a_database_keeps_others_away,
    a_new_database_is_told_where_one_was_asked_for,
    a_copy_that_cannot_be_written_is_read,
    a_folder_around_that_cannot_be_read_is_passed_over,
    a_full_disk_is_told,
    a_device_without_room_is_told,
    a_file_that_cannot_be_looked_at_is_told,
    a_disk_that_fills_up_is_told,
    what_is_no_file_is_told,
    what_is_no_file_is_told_before_a_database_is_made,
    two_names_of_one_file_are_told,
    a_copy_by_hard_links_is_only_read,
    damage_is_told,
    the_refused_word_is_told,
    the_faulty_line_is_told,
    a_faulty_line_far_down,
    a_typed_script_is_told,
    a_new_database_is_synced_before_it_has_its_name,
    a_run_syncs_all_names_before_it_changes_anything,
    a_file_that_was_missing_stays,
    what_is_told_durable_was_synced,
    a_glean_without_threads_waits_for_nobody,
    no_file_has_the_place_of_a_stream,
]


def try_one(test):
    """Whether a test holds, in a folder of its own."""
    before = os.getcwd()
    folder = tempfile.mkdtemp(prefix="foedus_edges_")
    os.chdir(folder)
    try:
        test()
        return True
    except LeftOut as reason:
        print(f"left out: {test.__name__}: {reason}")
        return True
    except AssertionError as error:
        print(f"FAILED: {test.__name__}: {error}")
        return False
    finally:
        os.chdir(before)
        shutil.rmtree(folder, ignore_errors=True)


def main():
    global PROGRAM
    if len(sys.argv) != 2:
        sys.exit(__doc__)
    PROGRAM = os.path.abspath(sys.argv[1])
    failed = [test.__name__ for test in TESTS if not try_one(test)]
    print(f"edges: {len(TESTS) - len(failed)} of {len(TESTS)} hold")
    sys.exit(1 if failed else 0)


if __name__ == "__main__":
    main()
