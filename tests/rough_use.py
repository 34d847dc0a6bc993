#!/usr/bin/env python3
"""Uses the program roughly, and asks that what is kept then is right: a run is ended by TERM, INT and HUP at a random
moment, or stopped and let go on; whoever reads what it prints goes away; files may not grow beyond a size, for sizes
from nothing on; a thread can't be made; and eight processes at once run scripts over one database.

Usage: tests/rough_use.py PROGRAM [TIMES [SEED]], where PROGRAM is the built program, crates/foedus/out/foedus. TIMES is
40 if it is left out. Databases are made in TMPDIR. Status: 0 where all is right, else 1.
"""
import os
import random
import resource
import shutil
import signal
import subprocess
import sys
import tempfile
import time

ROUNDS = 600
EDGES = [0, 1, 511, 512, 513, 1023, 1024, 1025]  # sizes of files
DECLARED = "array 1 200\n"
KEPT = "k glean\nk drop\n"
# Each round adds 1 to keys of their own leaves, by three workers; so each epoch has itself as these values.
KEYS = [(0, 0), (1, 40), (7, 199)]


def script(rounds=ROUNDS):
    lines = "".join(f"{worker} a 1 {key} 1; r 1 {key}\n" for worker, key in KEYS)
    return DECLARED + "".join(f"{lines}{KEPT if number % 5 == 4 else ''}join\n" for number in range(rounds))


def call(folder, *words, given="", **more):
    done = subprocess.run([PROGRAM, *words], cwd=folder, input=given.encode(), stdout=subprocess.PIPE,
                          stderr=subprocess.PIPE, timeout=120, **more)
    return done.returncode, done.stdout.decode()


def durable_in(text):
    told = [line for line in text[:text.rfind("\n") + 1].splitlines() if line.startswith("durable")]
    return int(told[-1].split()[1]) if told else 0


def check_kept(folder, durable, what):
    """The epoch that is kept; its values have to be those of so many rounds."""
    status, kept = call(folder, "dump")
    epoch = int(kept.split()[1]) if status == 0 else -1
    rows = "".join(f"1 {key} {epoch}\n" for _, key in sorted(KEYS, key=lambda pair: pair[1])) if epoch > 0 else ""
    if epoch < durable or kept != f"epoch {epoch}\n{rows}":
        sys.exit(f"{what}: {durable} was told durable, then: {status}, {kept!r}")
    return epoch


def start(folder, **more):
    with open(f"{folder}/script", "w") as file:
        file.write(script())
    with open(f"{folder}/script") as source:
        return subprocess.Popen([PROGRAM, "run"], cwd=folder, stdin=source, stderr=subprocess.DEVNULL, **more)


def signalled(folder, draw, number):
    """Whether the run was ended by a signal before its last round."""
    with open(f"{folder}/text", "w") as text:
        begun = start(folder, stdout=text)
        time.sleep(draw.random() * draw.choice([0.6, 0.2, 0.02]))
        begun.send_signal(number)
        if number == signal.SIGSTOP:
            time.sleep(0.05)
            begun.send_signal(signal.SIGCONT)
        status = begun.wait()
    text = open(f"{folder}/text").read()
    epoch = check_kept(folder, durable_in(text), f"signal {number}")
    if status not in (0, -number) or number == signal.SIGSTOP and status != 0:
        sys.exit(f"signal {number}: status {status}")
    if status == 0 and epoch != ROUNDS:
        sys.exit(f"signal {number}: status 0 at epoch {epoch}")
    return status != 0


def reader_leaves(folder, draw):
    """Whether the run was told that nobody reads it."""
    begun = start(folder, stdout=subprocess.PIPE)
    text = begun.stdout.read(draw.randrange(1, 20000)).decode()
    begun.stdout.close()
    status = begun.wait()
    check_kept(folder, durable_in(text), "a reader that leaves")
    if status not in (0, 4):
        sys.exit(f"a reader that leaves: status {status}")
    return status == 4


def may_grow_to(size):
    def limit():
        signal.signal(signal.SIGXFSZ, signal.SIG_IGN)
        resource.setrlimit(resource.RLIMIT_FSIZE, (size, size))
    return limit


def small_files(folder, size):
    """Whether a run met the size, beyond which no file may grow; the next run goes on."""
    given = script(40)
    status, text = call(folder, "run", given=given, preexec_fn=may_grow_to(size))
    durable = durable_in(text)
    if status not in (0, 5) or status == 5 and not text.splitlines()[-1].startswith("device "):
        sys.exit(f"files of {size} bytes: {status}, {text[-200:]!r}")
    epoch = check_kept(folder, durable, f"files of {size} bytes")
    status_then, text = call(folder, "run", given=given)
    if status_then != 0 or durable_in(text) != epoch + 40:
        sys.exit(f"files of {size} bytes, and then without: {status_then}, {text[-200:]!r}")
    return status == 5


def without_thread(folder, when):
    """A run of which a thread, or each from one on, can't be made."""
    given = script(3)
    inject = f"clone,clone3:error=EAGAIN:when={when}"
    with open(f"{folder}/script", "w") as file:
        file.write(given)
    with open(f"{folder}/script") as source:
        done = subprocess.run(["strace", "-f", "-o", "calls", "-e", "trace=clone,clone3", "-e", f"inject={inject}",
                               PROGRAM, "run"], cwd=folder, stdin=source, stdout=subprocess.PIPE, timeout=120)
    if done.returncode != 0 or durable_in(done.stdout.decode()) != 3:
        sys.exit(f"thread {when} refused: {done.returncode}, {done.stdout[-200:]!r}")
    check_kept(folder, 3, f"thread {when} refused")
    return "(INJECTED)" in open(f"{folder}/calls").read()


def at_once(folder, processes, times):
    """How often a process was refused, of so many that run so many scripts each, all over one database."""
    work = (f"i=0; n=0; while [ $i -lt {times} ]; do "
            "if printf 'array 1 4\\n0 a 1 2 1\\n' | \"$0\" run >out.$1 2>/dev/null; then i=$((i+1)); "
            "else [ \"$(cat out.$1)\" = 'device save' ] || exit 9; n=$((n+1)); fi; done; echo $n")
    begun = [subprocess.Popen(["sh", "-c", work, PROGRAM, str(number)], cwd=folder, stdout=subprocess.PIPE)
             for number in range(processes)]
    refused = sum(int(each.communicate()[0] or "-1") for each in begun)
    if any(each.returncode for each in begun):
        sys.exit("a process among others was told something else than `device save`")
    status, kept = call(folder, "dump")
    if (status, kept) != (0, f"epoch {processes * times}\n1 2 {processes * times}\n"):
        sys.exit(f"{processes} processes, {times} runs each: {status}, {kept!r}")
    return refused


def in_folder(work, *given):
    folder = tempfile.mkdtemp(prefix="foedus_rough_")
    answer = work(folder, *given)
    shutil.rmtree(folder)
    return answer


def main():
    global PROGRAM
    if len(sys.argv) < 2:
        sys.exit(__doc__)
    PROGRAM = os.path.abspath(sys.argv[1])
    times = int(sys.argv[2]) if len(sys.argv) > 2 else 40
    draw = random.Random(int(sys.argv[3]) if len(sys.argv) > 3 else 7)
    for number in (signal.SIGTERM, signal.SIGINT, signal.SIGHUP, signal.SIGSTOP):
        ended = sum(in_folder(signalled, draw, number) for _ in range(times))
        print(f"{times} runs got {number.name}, {ended} of them before their end: each next dump was right", flush=True)
    left = sum(in_folder(reader_leaves, draw) for _ in range(times))
    print(f"{times} runs lost their reader, {left} of them were told so: each next dump was right", flush=True)
    sizes = sorted({*(EDGES if times > 1 else [512]), *(draw.randrange(60000) for _ in range(times))})
    met = sum(in_folder(small_files, size) for size in sizes)
    print(f"{len(sizes)} runs whose files may not grow beyond a size, {met} met it: each was told, and the next went "
          "on", flush=True)
    if shutil.which("strace"):
        refused = sum(in_folder(without_thread, when) for when in ("1", "2", "3", "5", "1+", "4+"))
        print(f"6 runs, of which {refused} were refused threads: all lines were run", flush=True)
    refused = in_folder(at_once, 8, min(times, 10))
    print(f"8 processes ran {min(times, 10)} scripts each over one database, and were refused {refused} times meanwhile: "
          "each run counts once", flush=True)


if __name__ == "__main__":
    if len(sys.argv) < 2 or {"-h", "--help"} & set(sys.argv):
        print(__doc__)
        sys.exit(len(sys.argv) < 2)
    main()
