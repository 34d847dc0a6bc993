#!/usr/bin/env python3
"""Refuses memory in turn: one allocation of a call, then the next one in the next call, until a call makes no more. Each
answer is checked: status 8 with all that was told by then and `memory`, or the answer of a call to which none was
refused. After each a dump has what was told durable, and the call is made again.

Usage: tests/refused_memory.py PROGRAM [STEP], where only each STEP-th allocation is refused (1 if it is left out). It
wants a C compiler, cc, and a system that loads a library by LD_PRELOAD: what the program takes from malloc and realloc
is counted. Status: 0 where all answers are right, else 1.
"""
import os
import shutil
import subprocess
import sys
import tempfile

KEPT = "array 1 40\n0 w 1 2 7\n0 a 1 0 1\n"

# What is run, over what the scripts before it left: the words and the script.
CALLS = [
    ("a run with a snapshot", [], ["run"],
     "array 1 40\n0 w 1 2 7\n0 a 1 0 1\njoin\nk save\nk glean\n0 a 1 2 1\njoin\nk epoch\njoin\n0 r 1 2\n"),
    ("a run over log entries", [KEPT], ["run"], "array 1 40\n0 a 1 2 1\njoin\n0 r 1 2\n"),
    ("a run over a tree", [], ["run"], "tree 2\n0 w 2 5 1; s 2 0 9\njoin\nk glean\n0 a 2 5 1\n"),
    ("a run in brief", [KEPT], ["run", "--brief"], "array 1 40\n0 a 1 2 1\njoin\nk glean\n"),
    ("a dump", [KEPT], ["dump"], ""),
    ("a list of snapshots", [KEPT, KEPT], ["snaps"], ""),
    ("a snapshot", [KEPT, KEPT], ["snap", "1"], ""),
    ("a script that is made", [], ["make", "1", "2", "20"], ""),
]


def call(folder, words, script, refused=None):
    """The status and the lines, and whether an allocation was refused."""
    mark = f"{folder}/refused"
    environment = dict(os.environ)
    if refused is not None:
        environment.update(LD_PRELOAD=LIBRARY, REFUSE_NTH=str(refused), REFUSE_MARK=mark)
    done = subprocess.run([PROGRAM, *words], cwd=folder, input=script.encode(), stdout=subprocess.PIPE,
                          stderr=subprocess.PIPE, timeout=60, env=environment)
    was = os.path.exists(mark)
    if was:
        os.remove(mark)
    return done.returncode, done.stdout.decode().splitlines(), was


def epoch_in(lines, word):
    """The last epoch behind this word, 0 where there is none."""
    return max([0, *(int(line.split()[-1]) for line in lines if line.split()[-2:-1] == [word])])


def is_told(lines, whole):
    """Whether so much of a call's lines was told, then maybe a keeper line that wanted memory, and that it did."""
    if not lines or lines[-1] != "memory":
        return False
    told = lines[:-1]
    same = sum(1 for _ in iter_same(told, whole))
    behind = [line.split() for line in told[same:]]
    return not behind or (
        all(len(words) == 2 and words[0].startswith("k.") for words in behind)
        and behind[0][1] == "memory" and all(words[1] == "unrun" for words in behind[1:])
    )


def iter_same(told, whole):
    for line, other in zip(told, whole):
        if line != other:
            return
        yield line


def check_behind(folder, words, script, told, what):
    """What is kept, and the same call again."""
    status, kept, _ = call(folder, ["dump"], "")
    durable = max(epoch_in(told, "durable"), epoch_in(told, "save"))
    if status != 0 or epoch_in(kept[:1], "epoch") < durable:
        sys.exit(f"{what}: {told}, and then a dump: {status}, {kept}")
    status, again, _ = call(folder, words, script)
    if status != 0:
        sys.exit(f"{what}: {told}, and then again: {status}, {again}")


def try_call(what, before, words, script, step):
    with tempfile.TemporaryDirectory() as top:
        start = f"{top}/start"
        os.mkdir(start)
        for earlier in before:
            assert call(start, ["run"], earlier)[0] == 0
        plain = f"{top}/plain"
        shutil.copytree(start, plain)
        status, whole, _ = call(plain, words, script)
        assert status == 0, whole
        refused, counts = 1, {0: 0, 8: 0, "keeper": 0}
        while True:
            folder = f"{top}/run"
            shutil.copytree(start, folder)
            came, lines, was = call(folder, words, script, refused)
            where = f"{what}: allocation {refused} refused"
            right = is_told(lines[-1:] if "--brief" in words else lines, whole)
            if not (came == 0 and lines == whole or was and came == 8 and right):
                sys.exit(f"{where}: status {came}, {lines}, not {whole}")
            check_behind(folder, words, script, lines, where)
            shutil.rmtree(folder)
            if not was:
                break
            counts[came] += 1
            counts["keeper"] += any(line.endswith(" memory") for line in lines)
            refused += step
        print(f"{what}: {refused - 1} allocations, {counts[8]} refused ones told as `memory` ({counts['keeper']} by a "
              f"keeper line), {counts[0]} done without", flush=True)


def main():
    global PROGRAM, LIBRARY
    if len(sys.argv) < 2:
        sys.exit(__doc__)
    PROGRAM = os.path.abspath(sys.argv[1])
    step = int(sys.argv[2]) if len(sys.argv) > 2 else 1
    source = os.path.join(os.path.dirname(os.path.abspath(__file__)), "refuse.c")
    with tempfile.TemporaryDirectory() as made:
        LIBRARY = f"{made}/refuse.so"
        subprocess.run(["cc", "-O1", "-shared", "-fPIC", "-o", LIBRARY, source, "-ldl"], check=True)
        for what, before, words, script in CALLS:
            try_call(what, before, words, script, step)


if __name__ == "__main__":
    if len(sys.argv) < 2 or {"-h", "--help"} & set(sys.argv):
        print(__doc__)
        sys.exit(len(sys.argv) < 2)
    main()
