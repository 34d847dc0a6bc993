#!/usr/bin/env python3
"""Records the system's calls of a run on the files of its database, and makes what a stop of the machine behind each of
them may leave: what was written since a file's last sync is lost, is all there, is torn, or has other bytes in its
place; or each of these, drawn for one call after another. Over each such image a dump must tell an epoch, none before
the last that was told durable by then, with exactly the run through it; each snapshot must have the run through its
epoch; and one run in some goes on from there.

Usage: tests/stop_images.py PROGRAM [DRAWS [SEED [STEP]]]. It wants strace. Of each stop so many images are drawn beside
the four kinds, 2 if it is left out; with STEP only each STEP-th stop is tried. Status: 0 where all are right, else 1.
"""
import os
import random
import re
import shutil
import subprocess
import sys
import tempfile

FILES = ["save", "snaps", *(f"bank{number}" for number in range(16))]
KINDS = ["lost", "kept", "torn", "other"]
EVERY = 16  # of so many images one is run on

# The script before, and the rounds of the recorded run. Workers' keys are apart, so that each epoch has one state.
RUNS = [
    ("over nothing", "", [
        "0 w 1 2 7; w 2 5 1\n1 w 1 3 5\n",
        "0 a 1 2 1\n1 a 1 3 1\nk glean\n",
        "",
        "1 w 1 0 9\nk save\nk glean\n",
        "0 d 2 5\n2 w 1 1 4\n",
    ]),
    ("over log entries", "0 w 1 2 7; w 2 5 1\n1 w 1 3 5\n", ["0 a 1 2 1\n", "1 a 1 3 1\nk glean\n", "0 d 2 5\nk glean\n"]),
]
DECLARED = "array 1 8\ntree 2\n"
LINE = re.compile(r"^(\d+) +(\w+)\((.*)$", re.S)
RESUMED = re.compile(r"^(\d+) +<\.\.\. (\w+) resumed>.*= (-?\d+)", re.S)


def call(folder, *words, script=""):
    done = subprocess.run([PROGRAM, *words], cwd=folder, input=script.encode(), stdout=subprocess.PIPE,
                          stderr=subprocess.PIPE, timeout=60)
    return done.returncode, done.stdout.decode()


def script_of(rounds):
    return DECLARED + "join\n".join(rounds)


def contents(folder):
    return {name: open(f"{folder}/vault/{name}", "rb").read() for name in FILES}


def states_of(before, rounds):
    """What a dump tells of each epoch from the first on that a stop may leave."""
    with tempfile.TemporaryDirectory() as folder:
        first = call(folder, "dump")[1]
        states = {0: first} if not before else {}
        if before:
            assert call(folder, "run", script=script_of([before]))[0] == 0
            states[1] = call(folder, "dump")[1]
        for round_ in rounds:
            assert call(folder, "run", script=script_of([round_.replace("k glean\n", "").replace("k save\n", "")]))[0] == 0
            told = call(folder, "dump")[1]
            states[int(told.split()[1])] = told
    return states


def bytes_of(text):
    """The bytes of a string as strace prints it, each as \\xNN."""
    return bytes.fromhex(text.replace("\\x", ""))


def traced(folder, script):
    """The calls of a run on the files, in the order in which they ended, as (file, call, offset or length, bytes)."""
    names = "pwrite64,write,ftruncate,fsync,fdatasync"
    with open(f"{folder}/script", "w") as file:
        file.write(script)
    with open(f"{folder}/script") as source, open(f"{folder}/text", "w") as text:
        status = subprocess.run(["strace", "-f", "-y", "-xx", "-s", "1000000", "-o", "calls", "-e", f"trace={names}",
                                 PROGRAM, "run"], cwd=folder, stdin=source, stdout=text, timeout=120).returncode
    assert status == 0
    calls, begun = [], {}
    with open(f"{folder}/calls", encoding="latin-1") as file:
        for line in file:
            calls += event_of(line, begun)
    return calls


def event_of(line, begun):
    """The call that ended with this line, if one did."""
    resumed = RESUMED.match(line)
    if resumed:
        thread, name, result = resumed.groups()
        return made(name, begun.pop((thread, name)), int(result))
    came = LINE.match(line)
    if not came:
        return []
    thread, name, rest = came.groups()
    if "<unfinished" in rest:
        begun[thread, name] = rest
        return []
    return made(name, rest, int(rest.rpartition("= ")[2].split()[0]))


def made(name, rest, result):
    path = bytes_of(re.search(r"<([^>]*)>", rest).group(1)).decode()
    file = os.path.basename(path)
    if result < 0 or not (file in FILES or file == "text"):
        return []
    if name in ("pwrite64", "write"):
        content = bytes_of(re.search(r'"([^"]*)"', rest).group(1))[:result]
        at = int(re.search(r'", \d+, (\d+)', rest).group(1)) if name == "pwrite64" else 0
        return [(file, "write", at, content)]
    if name == "ftruncate":
        return [(file, "cut", int(re.search(r">, (\d+)", rest).group(1)), b"")]
    return [(file, "sync", 0, b"")]


def put(content, at, new):
    return content if at > len(content) else content[:at] + new + content[at + len(new):]


def left_of(content, event, kind, draw):
    """What is left of a file on which a call is pending."""
    _, name, at, new = event
    if name == "cut":
        past = max(len(content) - at, 0)
        return {"lost": content, "kept": content[:at], "torn": content[:at + past // 2],
                "other": content[:at] + bytes([draw.randrange(256)]) * past}[kind]
    byte = draw.choice([0, 0xA5, 0xFF, draw.randrange(256)])
    return {"lost": content, "kept": put(content, at, new), "torn": put(content, at, new[:draw.randrange(len(new) + 1)]),
            "other": put(content, at, bytes([byte]) * len(new))}[kind]


class Stops:
    """The files as reads give them, as they were synced last, and the calls since."""

    def __init__(self, first):
        self.now, self.synced, self.pending = dict(first), dict(first), {name: [] for name in first}
        self.text = ""

    def add(self, event):
        file, name, at, new = event
        if file == "text":
            self.text += new.decode()
        elif name == "sync":
            self.synced[file], self.pending[file] = self.now[file], []
        else:
            self.pending[file].append(event)
            self.now[file] = self.now[file][:at] if name == "cut" else put(self.now[file], at, new)

    def image(self, kind, draw):
        left = {}
        for name, content in self.synced.items():
            for event in self.pending[name]:
                content = left_of(content, event, kind or draw.choice(KINDS), draw)
            left[name] = content
        return left

    def told(self):
        epochs = [int(line.split()[1]) for line in self.text.split("\n")[:-1] if line.startswith("durable")]
        return max([0, *epochs])


def check_image(folder, left, states, told, runs_on, where):
    for name, content in left.items():
        with open(f"{folder}/vault/{name}", "wb") as file:
            file.write(content)
    status, kept = call(folder, "dump")
    epoch = int(kept.split()[1]) if status == 0 else -1
    if epoch < told or states.get(epoch) != kept:
        sys.exit(f"{where}, {told} was told durable: {status}, {kept!r}")
    for line in call(folder, "snaps")[1].splitlines():
        of = int(line.split()[1])
        answer = call(folder, "snap", str(of))
        if answer[0] != 0 or of in states and answer[1] != states[of]:
            sys.exit(f"{where}: the snapshot of epoch {of}: {answer}")
    if runs_on:
        status, text = call(folder, "run", script=DECLARED + "0 a 1 7 1\n")
        if status != 0 or not text.endswith(f"durable {epoch + 1}\n"):
            sys.exit(f"{where}, and then a run: {status}, {text!r}")


def try_run(what, before, rounds, draws, draw, step):
    states = states_of(before, rounds)
    with tempfile.TemporaryDirectory() as folder:
        assert call(folder, "dump")[0] == 0
        if before:
            assert call(folder, "run", script=script_of([before]))[0] == 0
        stops = Stops(contents(folder))
        calls = traced(folder, script_of(rounds))
        count = 0
        for number, event in enumerate([None, *calls]):
            if event:
                stops.add(event)
            if number % step:
                continue
            for kind in [*KINDS, *[None] * draws]:
                where = f"{what}: behind {number} calls, {kind or 'drawn'}"
                check_image(folder, stops.image(kind, draw), states, stops.told(), count % EVERY == 0, where)
                count += 1
        assert contents(folder).keys() == stops.now.keys() and stops.told() == max(states)
    print(f"{what}: {len(calls)} calls, {count} images, each recovered to a run through an epoch that covers what was told",
          flush=True)


def main():
    global PROGRAM
    if len(sys.argv) < 2:
        sys.exit(__doc__)
    PROGRAM = os.path.abspath(sys.argv[1])
    draws = int(sys.argv[2]) if len(sys.argv) > 2 else 2
    draw = random.Random(int(sys.argv[3]) if len(sys.argv) > 3 else 41)
    if shutil.which("strace") is None:
        print("left out: there is no strace")
        return
    step = int(sys.argv[4]) if len(sys.argv) > 4 else 1
    for what, before, rounds in RUNS:
        try_run(what, before, rounds, draws, draw, step)


if __name__ == "__main__":
    if len(sys.argv) < 2 or {"-h", "--help"} & set(sys.argv):
        print(__doc__)
        sys.exit(len(sys.argv) < 2)
    main()
