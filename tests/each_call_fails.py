#!/usr/bin/env python3
"""Makes each call of the system fail once that a run makes on the files of its database, and looks what is told.

Usage: tests/each_call_fails.py PROGRAM [EVERY], where only each EVERY-th kind of calls on each file fails.

It wants strace. Each call of a first run, which makes the database, of a second one over it, of one in brief, of a dump
and of what tells of snapshots is made to fail with EIO: then the status is 5, the last line is `device NAME` for the
file of the call, and standard error has the system's words; but what a dump and the others tell doesn't hang on a sync
that fails, which standard error has all the same. A call that a signal interrupts (EINTR) is made again: the
answer is that of a run without it. After each run in which a call failed a dump must find what had been told durable,
and the run be made again. Each read of the script fails too (status 3, and `read` alone), and each write of the text
(status 4, and so much of it as was written before).
"""
import os
import re
import shutil
import subprocess
import sys
import tempfile

# A round has lines of one thread, so that a run has one text.
FIRST = b"array 1 8\ntree 2\n0 w 1 2 8; w 2 3 9\njoin\nk epoch\nk save\nk glean\njoin\n1 a 1 2 1\njoin\n"
SECOND = b"array 1 8\ntree 2\n0 a 1 3 1\njoin\n2 a 2 4 1\njoin\nk glean\njoin\n1 a 1 2 1\njoin\nk glean\n"
CALLS = ["openat", "flock", "statx", "newfstatat", "mkdir", "rename", "lseek", "pread64", "pwrite64", "read", "write",
         "ftruncate", "fsync"]
# Those that a signal may interrupt.
INTERRUPTED = ["openat", "flock", "pread64", "pwrite64", "ftruncate", "fsync"]
FILES = ["save.new", "save", "snaps"] + [f"bank{n}" for n in range(16)] + [""]


def run(words, script, inject=None, path=None):
    """The status, what was printed, what was told, and the call that was made to fail, as strace prints it."""
    traced = []
    if inject:
        traced = ["strace", "-f", "-y", "-o", "calls", "-P", path, "-e", f"trace={inject[0]}",
                  "-e", f"inject={inject[0]}:error={inject[1]}:when={inject[2]}"]
    done = subprocess.run([*traced, PROGRAM, *words], input=script, stdout=subprocess.PIPE, stderr=subprocess.PIPE,
                          timeout=120)
    failed = ""
    if inject:
        with open("calls", encoding="utf-8", errors="replace") as file:
            failed = "".join(line for line in file if "(INJECTED)" in line)
    return done.returncode, done.stdout, done.stderr.decode("utf-8", "replace"), failed


def fresh(start):
    """The folder as the call begins: with no database, or with a copy of one."""
    shutil.rmtree("vault", ignore_errors=True)
    if start:
        shutil.copytree(start, "vault")


def durable(printed):
    """The last epoch that was told durable, 0 where none was."""
    told = re.findall(rb"^durable (\d+)$", printed, re.M)
    return int(told[-1]) if told else 0


def check_failed(what, start, words, script, kept, came):
    """What a run tells whose call failed, and what a dump finds then."""
    status, printed, told, failed = came
    where = f"{what}: {failed.strip()}: status {status}, {printed!r}, {told!r}"
    if words[0] != "run" and what.startswith("fsync"):
        assert status == 0 and printed == run(words, script)[1] and "Input/output error" in told, where
        return
    assert status == 5, where
    last = printed.splitlines()[-1].decode()
    assert last.startswith("device "), where
    name = last[len("device "):]
    if what.split()[1] in FILES[1:-1]:
        assert name == what.split()[1], where
    else:
        assert name == "save", where
    assert "Input/output error" in told and f"vault/{name}: " in told, where
    after = run(["dump"], b"")
    assert after[0] == 0, f"{where}: dump: {after}"
    epoch = int(after[1].split()[1])
    assert epoch >= max(durable(printed), kept), f"{where}: dump: {after}"
    again = run(words, script)
    assert again[0] == 0, f"{where}: again: {again}"


def try_call(name, call, start, words, script, kept):
    """Makes each such call on a file fail once, and answers how many there were."""
    path = os.path.join(os.getcwd(), "vault", name) if name else os.path.join(os.getcwd(), "vault")
    count = 0
    for when in range(1, 1000):
        fresh(start)
        came = run(words, script, (call, "EIO", when), path)
        if not came[3]:
            return count
        check_failed(f"{call} {name or 'folder'} {when}", start, words, script, kept, came)
        count += 1
        if call in INTERRUPTED:
            fresh(start)
            again = run(words, script, (call, "EINTR", when), path)
            fresh(start)
            plain = run(words, script)
            assert again[:3] == plain[:3], f"{call} {name} {when} interrupted: {again}, not {plain}"
    raise AssertionError(f"{call} {name}: more than 1000 calls")


def run_with_files(words, script, inject, path):
    """The same over a script and a text in files, with the text that was written."""
    with open("script", "wb") as file:
        file.write(script)
    traced = ["strace", "-f", "-y", "-o", "calls", "-P", path, "-e", f"trace={inject[0]}",
              "-e", f"inject={inject[0]}:error={inject[1]}:when={inject[2]}"]
    with open("script", "rb") as source, open("text", "wb") as text:
        status = subprocess.run([*traced, PROGRAM, *words], stdin=source, stdout=text, stderr=subprocess.PIPE,
                                timeout=120).returncode
    with open("text", "rb") as file, open("calls", encoding="utf-8", errors="replace") as calls:
        return status, file.read(), any("(INJECTED)" in line for line in calls)


def try_stream(call, name, start, words, script, kept):
    """Makes each read of the script, or each write of the text, fail once, and answers how many there were."""
    fresh(start)
    whole = run(words, script)[1]
    path = os.path.join(os.getcwd(), name)
    for when in range(1, 1000):
        for error in ("EIO", "EINTR"):
            fresh(start)
            status, text, failed = run_with_files(words, script, (call, error, when), path)
            where = f"{call} {name} {when}: {error}: status {status}, {text!r}"
            if not failed:
                assert status == 0 and text == whole, where
                return when - 1
            if error == "EINTR":
                assert status == 0 and text == whole, where
            elif call == "read":
                assert status == 3 and text == b"read\n", where
            else:
                assert status == 4 and whole.startswith(text) and text != whole, where
            after = run(["dump"], b"")
            assert after[0] == 0 and int(after[1].split()[1]) >= max(durable(text), kept), f"{where}: dump: {after}"
    raise AssertionError(f"{call} {name}: more than 1000 calls")


def try_run(what, start, words, script, kept):
    """Makes each call of a run fail once."""
    total = 0
    for name, call in [(name, call) for name in FILES for call in CALLS][::EVERY]:
        total += try_call(name, call, start, words, script, kept)
    print(f"{what}: {total} calls, each failed once and was told", flush=True)


def main():
    global PROGRAM, EVERY
    PROGRAM, EVERY = os.path.abspath(sys.argv[1]), int((sys.argv[2:] or [1])[0])
    if shutil.which("strace") is None:
        print("left out: there is no strace")
        return
    folder = tempfile.mkdtemp(prefix="foedus_calls_")
    os.chdir(folder)
    try:
        try_run("a first run", None, ["run"], FIRST, 0)
        fresh(None)
        kept = durable(run(["run"], FIRST)[1])
        shutil.copytree("vault", "kept")
        try_run("a second run", "kept", ["run"], SECOND, kept)
        try_run("a run in brief", "kept", ["run", "--brief"], SECOND, kept)
        try_run("a dump", "kept", ["dump"], b"", kept)
        try_run("a list of snapshots", "kept", ["snaps"], b"", kept)
        try_run("a snapshot", "kept", ["snap", "0"], b"", kept)
        for what, start, words, script in (("a first run", None, ["run"], FIRST), ("a second run", "kept", ["run"], SECOND),
                                           ("a dump", "kept", ["dump"], b"")):
            reads = try_stream("read", "script", start, words, script, kept if start else 0) if script else 0
            writes = try_stream("write", "text", start, words, script, kept if start else 0)
            print(f"{what}: {reads} reads of the script and {writes} writes of the text, each failed once and was told",
                  flush=True)
    finally:
        os.chdir("/")
        shutil.rmtree(folder, ignore_errors=True)


if __name__ == "__main__":
    if len(sys.argv) < 2 or {"-h", "--help"} & set(sys.argv):
        print(__doc__)
        sys.exit(len(sys.argv) < 2)
    main()
