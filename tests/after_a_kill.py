#!/usr/bin/env python3
"""Tries what a stop of the machine leaves in a call behind a run that was killed, or whose sync failed.

    tests/after_a_kill.py PROGRAM [--full] [--without NAMES] [--kills N] [--forgotten N] [--dying N] [--dumps N]
                          [--seed N] [--images N] [--keep FOLDER]

A run is recorded by strace, and ends at an instant of its record: it is killed. The database is then what the system
still shows. A further call goes on from that and is recorded too, and at each instant of it the machine stops. For each
there are images of what that may leave (tests/stop_model.py), and a dump of each image has to give an epoch, and the
state of just that epoch. It is none before the last that a run told saved by then; and from the first write or cut of
the further run on none before the one that it went on from. Four series:

  --kills N      runs killed, a quarter of them between the write and the sync of a savepoint's valid byte, a tenth
                 between a file's making or rename and the folder's sync; then a run. Some go on over a copy of the
                 folder, of which nothing was synced, and in some a sync fails instead
  --forgotten N  runs of which a sync fails and is forgotten: reads give what it was to bring, and no later sync brings
                 it, as Linux does it. In this series and the next a byte that is written as it is stays through a stop
  --dying N      the same, and the process dies as its sync has failed
  --dumps N      runs killed, and then a dump: what it printed has to be there behind a stop

Without these options each series is short; with --full they have 200, 360, 120 and 60. --without takes away from the
record of the further call, up to its first write or cut, the syncs of these, with commas between: save, snaps, banks,
folder, around. Only kills are made then, and wrong images are wanted: they show what the script sees.

The last line counts. Status: 0 where no image is wrong, else 1. Where there is no strace nothing is tried, and it says
so. Databases are made in memory. The draws repeat by --seed, as far as threads let runs repeat.
"""
import argparse
import os
import random
import re
import shutil
import subprocess
import sys
import tempfile
import time
from collections import Counter, namedtuple
from dataclasses import dataclass, field

import stop_model
from traced_calls import FILES, NEVER, ends_between, is_change, record, text_by

ARRAY, KEYS = 1, 64
TREE, TREE_KEYS = 2, 96
WORKERS = 8
TRIES = ["--tries", "1000000"]
AIMS = ["valid byte", "any", "name", "valid byte", "any", "valid byte", "any", "name", "any", "any"]
SYNCS = 45  # a sync that fails is one of so many first ones
SHORT = {"kills": 24, "forgotten": 10, "dying": 4, "dumps": 4}
FULL = {"kills": 200, "forgotten": 360, "dying": 120, "dumps": 60}
SAID = {"kills": "kills", "forgotten": "failed syncs that were forgotten",
        "dying": "failed syncs behind which the process died", "dumps": "kills and a dump"}

# A folder to begin with, as files or None, and whether it is a copy of which nothing was synced.
Start = namedtuple("Start", "files is_copy")


# ---- scripts of which each epoch's state is known


class Plan:
    """Rounds behind an epoch and its state, and what each leaves. Workers' keys are apart, so their order is free."""

    def __init__(self, draw, epoch, state, values):
        self.draw, self.values = draw, values
        self.lines = [f"array {ARRAY} {KEYS}", f"tree {TREE}"]
        self.first, self.states = epoch, [state]
        for number in range(draw.choice((1, 1, 2, 3))):
            if number:
                self.lines.append("join")
            self.states.append(self.add_round(dict(self.states[-1])))

    def add_round(self, state):
        lines = []
        for _ in range(self.draw.choice((0, 1, 2, 6, 20))):
            worker = self.draw.randrange(WORKERS)
            operations = [self.operation(worker, state) for _ in range(self.draw.choice((1, 1, 3)))]
            lines.append(f"{worker} {'; '.join(operations)}")
        for _ in range(self.draw.choice((0, 0, 1, 2))):
            line = f"k {self.draw.choice(('save', 'glean', 'save', 'glean', 'drop'))}"
            lines.insert(self.draw.randrange(len(lines) + 1), line)
        self.lines += lines
        return state

    def operation(self, worker, state):
        storage, count = self.draw.choice(((ARRAY, KEYS), (TREE, TREE_KEYS)))
        key = worker + WORKERS * self.draw.randrange(count // WORKERS)
        if storage == TREE and (storage, key) in state and self.draw.random() < 0.3:
            del state[storage, key]
            return f"d {storage} {key}"
        self.values[0] += 1
        state[storage, key] = self.values[0]
        return f"w {storage} {key} {self.values[0]}"

    def text(self):
        return ("\n".join(self.lines) + "\n").encode()

    def state(self, epoch):
        """What the database has as of an epoch; None where this run has no such epoch."""
        return self.states[epoch - self.first] if 0 <= epoch - self.first < len(self.states) else None


def state_of(epoch, plans):
    """What the database has as of an epoch: by the last run that went on from it or from an earlier one."""
    for plan in reversed(plans):
        if plan.first <= epoch:
            return plan.state(epoch)
    return None


def saved(text):
    """The last epoch that whole lines tell saved, else 0."""
    return max(map(int, re.findall(rb"(?m)^(?:durable|k\.\d+ save) (\d+)\n", text)), default=0)


def parse(dump):
    head, *rows = dump.decode().splitlines()
    state = {}
    for row in rows:
        storage, key, value = map(int, row.split())
        state[storage, key] = value
    return int(head.split()[1]), state


# ---- a database in a folder


class Home:
    """A folder in which the program is called."""

    def __init__(self, program, path):
        self.program, self.path = program, path
        os.mkdir(path)

    def put(self, files):
        shutil.rmtree(f"{self.path}/vault", ignore_errors=True)
        if files is not None:
            os.mkdir(f"{self.path}/vault")
            for name, data in files.items():
                with open(f"{self.path}/vault/{name}", "wb") as file:
                    file.write(data)

    def files(self):
        found = {}
        for name in os.listdir(f"{self.path}/vault"):
            with open(f"{self.path}/vault/{name}", "rb") as file:
                found[name] = file.read()
        return found

    def call(self, words, script=b""):
        done = subprocess.run([self.program, *words], input=script, cwd=self.path, stdout=subprocess.PIPE,
                              stderr=subprocess.PIPE, timeout=120, check=False)
        return done.returncode, done.stdout, done.stderr

    def recorded(self, words, script=b"", failing_sync=None):
        return record(self.program, words, script, self.path, failing_sync)


def folder_behind(start, runs, forgets=False):
    """The folder behind some runs, each up to an instant. Where a system doesn't forget, a failed sync does nothing."""
    folder = stop_model.Folder(*start)
    for events, instant in runs:
        for event in events:
            if event.end is not None and event.end <= instant and (forgets or event.kind != "not synced"):
                folder.call(event)
    return folder


def first_change(start, runs, events):
    """When the first write or cut begins that changes a database, as one that writes what reads give doesn't."""
    folder = folder_behind(start, runs)
    for event in sorted((event for event in events if event.end is not None), key=lambda event: event.end):
        if is_change(event):
            at, data = event.more if event.kind == "write" else (None, b"")
            if at is None or bytes(folder.names[event.name].shown[at:at + len(data)]) != data:
                return min(one.begin for one in events if is_change(one) and (one.end or NEVER) >= event.end)
        folder.call(event)
    return NEVER


def without(events, names, change):
    """The calls but for the syncs of these before the first change."""
    def name_of(event):
        name = {"folder synced": "folder", "around synced": "around"}.get(event.kind, event.name)
        return "banks" if name.startswith("bank") else name

    return [event for event in events
            if event.begin >= change or "synced" not in event.kind or name_of(event) not in names]


def opens_a_place(event):
    return event.kind == "write" and event.name == "save" and event.more[1] == bytes([stop_model.VALID])


def instants_at(events, aim):
    """The instants at which a run may be killed: ends of its calls, of the aimed ones where there are any."""
    found = []
    if aim == "valid byte":
        found = ends_between(events, opens_a_place, lambda event: (event.kind, event.name) == ("synced", "save"))
    elif aim == "name":
        found = ends_between(events, lambda event: event.kind in ("made", "renamed", "linked", "folder made"),
                             lambda event: event.kind == "folder synced")
    return found or [event.end for event in events if event.end and event.kind != "told"]


# ---- the trial


@dataclass
class Further:
    """The call behind the runs that ended early."""

    start: Start
    runs: list
    plans: list  # of each run, and of this one
    events: list
    change: int  # the instant of its first write or cut
    is_dump: bool
    dumps: dict = field(default_factory=dict)  # of each image that was seen

    def folder_at(self, instant, forgets):
        folder = folder_behind(self.start, [*self.runs, (self.events, instant)], forgets)
        # a call that has begun may be done, also in part
        for event in self.events:
            if event.begin <= instant < (event.end or NEVER) and event.kind in ("write", "cut"):
                folder.call(event)
        return folder

    def least(self, instant):
        """The least epoch that a stop may leave."""
        text = text_by(self.events, instant)
        least = saved(text)
        if not self.start.is_copy:
            least = max(least, self.plans[0].first, *(saved(text_by(*run)) for run in self.runs))
        if instant >= self.change or self.is_dump and text:
            least = max(least, self.plans[-1].first)
        return least

    def may_have(self, epoch, state, instant):
        """Whether this is the state of that epoch. Until this run has begun, a store that failed may be found, too."""
        plans = self.plans
        if epoch > plans[-1].first and instant < self.change:
            plans = plans[:-1]
        return state in (state_of(epoch, self.plans), state_of(epoch, plans))

    def instants(self):
        found = {event.begin for event in self.events if event.kind != "told"}
        return sorted(found | {event.end for event in self.events if event.end})


class Series:
    """Runs that end early in one way, and a further call behind each."""

    def __init__(self, kind, options, room):
        self.kind, self.options = kind, options
        self.forgets = kind in ("forgotten", "dying")
        self.draw = random.Random(f"{kind} {options.seed}")
        program = os.path.abspath(options.program)
        self.live, self.image = Home(program, f"{room}/{kind}"), Home(program, f"{room}/{kind}_image")
        self.values = [0]
        self.count = Counter()

    def is_enough(self, wanted):
        aimed = 0 if self.forgets else wanted
        return (self.count["tried"] >= wanted and self.count["valid byte"] >= aimed // 4
                and self.count["name"] >= aimed // 10)

    def try_all(self, wanted):
        # some kills aren't at what they aim at; a program without such an instant has to end, too
        while not self.is_enough(wanted) and self.count["goes"] < 3 * wanted + 20:
            wrong = self.count["wrong"]
            self.try_one()
            self.count["goes"] += 1
            self.count["behind"] += self.count["wrong"] > wrong

    def try_one(self):
        """One run that ends early, or two in a row, and a further call."""
        aim = "any" if self.forgets else AIMS[self.count["goes"] % len(AIMS)]
        start, runs, plans = self.begin(aim), [], []
        for last in (False, True) if self.draw.random() < 0.25 else (True,):
            runs.append(self.ended_early(start, runs, plans, aim if last else "any"))
        folder = folder_behind(start, runs, self.forgets)
        self.count_one(folder, runs)
        if self.kind == "kills" and aim == "any" and self.draw.random() < 0.4:
            start, runs = Start(folder.shown(), True), []
            self.count["copies"] += 1
        self.go_on(start, runs, plans)

    def count_one(self, folder, runs):
        if self.forgets:
            self.count["tried"] += any(event.kind == "not synced" for event in runs[-1][0])
        else:
            self.count["tried"] += 1
            self.count["name"] += folder.has_name_pending()
            self.count["valid byte"] += "save" in folder.names and folder.names["save"].has_open_place_pending()

    def begin(self, aim):
        """A folder to begin with, or none. Where names are aimed at, one with a file too few."""
        if self.draw.random() < (0.7 if aim == "name" else 0.3):
            return Start(None, False)
        self.live.put(None)
        status, _, told = self.live.call(["run"], Plan(self.draw, 0, {}, self.values).text())
        assert status == 0, told
        files = self.live.files()
        if aim == "name":
            del files[self.draw.choice([name for name in FILES if name in files and not files[name]])]
        return Start(files, False)

    def plan_over(self, files, plans):
        """A plan over what the system shows, which has to be what the runs before left; it goes to the plans."""
        self.image.put(files)
        status, dump, told = self.image.call(["dump"])
        assert status == 0, f"a dump of what the system shows: {status}, {dump}, {told}"
        epoch, state = parse(dump)
        if plans and state != state_of(epoch, plans):
            self.tell_wrong("the system shows another state", epoch)
        plans.append(Plan(self.draw, epoch, state, self.values))
        return plans[-1]

    def ended_early(self, start, runs, plans, aim):
        """A further run over what is shown: its calls, and the instant of its end."""
        files = folder_behind(start, runs).shown()
        script = self.plan_over(files, plans).text()
        if self.forgets:
            return self.with_a_failed_sync(files, script)
        failing = self.draw.randrange(1, SYNCS) if aim == "any" and self.draw.random() < 0.4 else None
        self.live.put(files)
        _, events = self.live.recorded(["run", *TRIES], script, failing)
        return events, NEVER - 1 if failing else self.draw.choice(instants_at(events, aim))

    def with_a_failed_sync(self, files, script):
        for _ in range(30):  # most runs have fewer syncs than the greatest that is drawn
            self.live.put(files)
            _, events = self.live.recorded(["run", *TRIES], script, self.draw.randrange(1, SYNCS))
            failed = [event.end for event in events if event.kind == "not synced" and event.end]
            if failed:
                break
        return events, min(failed, default=NEVER - 1) if self.kind == "dying" else NEVER - 1

    def go_on(self, start, runs, plans):
        """The further call, and a stop at each instant of it."""
        shown = folder_behind(start, runs).shown()
        plan, is_dump = self.plan_over(shown, plans), self.kind == "dumps"
        self.live.put(shown)
        done, events = self.live.recorded(*((["dump"],) if is_dump else (["run", *TRIES], plan.text())))
        if done.returncode:
            self.tell_wrong("the further call fails", done.returncode, done.stdout[-80:], done.stderr[-200:])
            return
        if folder_behind(start, [*runs, (events, NEVER)]).shown() != self.live.files():
            self.tell_wrong("the record isn't what the system shows")
            return
        change = first_change(start, runs, events)
        events = without(events, self.options.without.split(","), change)
        further = Further(start, runs, plans, events, change, is_dump)
        for instant in further.instants():
            self.stop_at(further, instant)

    def stop_at(self, further, instant):
        if further.start.is_copy and not further.least(instant):
            return  # of a copy nothing was told kept yet, and any of it may be missing
        folder = further.folder_at(instant, self.forgets)
        for number in range(self.options.images):
            how = ("all", "none", "any")[min(number, 2)]
            self.look(folder.image(self.draw, how, self.forgets), further, instant)
            if not folder.is_pending():
                break

    def look(self, files, further, instant):
        """Whether an image is right."""
        self.count["images"] += 1
        key = None if files is None else tuple(sorted(files.items()))
        if key not in further.dumps:
            further.dumps[key] = self.dump_of(files)
        status, dump = further.dumps[key]
        if status:
            self.tell_wrong(f"status {status}", dump[:60], files, further.least(instant))
            return
        epoch, state = parse(dump)
        if epoch < further.least(instant):
            self.tell_wrong("an epoch is lost", epoch, files, further.least(instant))
        elif not further.may_have(epoch, state, instant):
            self.tell_wrong("another state", epoch, files, further.least(instant))

    def dump_of(self, files):
        self.image.put(files)
        status, dump, _ = self.image.call(["dump"])
        gone = set(files or ()) - set(self.image.files())
        if any(any(files[name]) for name in gone):
            self.tell_wrong("a dump removes a file with bytes", gone, files)
        return status, dump

    def tell_wrong(self, what, came=None, files=None, *more):
        self.count["wrong"] += 1
        self.count[f"wrong: {what}"] += 1
        if self.count[f"wrong: {what}"] <= self.options.show:
            print(f"{self.kind}, go {self.count['goes']}: {what}: {came}", *more, flush=True)
        if self.options.keep and files is not None:
            place = f"{self.options.keep}/{self.kind}_{self.count['wrong']}"
            Home(self.image.program, place).put(files)

    def told(self):
        text = f"{self.count['tried']} {SAID[self.kind]}"
        if not self.forgets:
            text += (f", {self.count['valid byte']} between the write and the sync of a valid byte, "
                     f"{self.count['name']} between a name and the folder's sync")
        if self.count["copies"]:
            text += f", {self.count['copies']} over copies"
        return f"{text}: {self.count['images']} images, {self.count['wrong']} wrong, behind {self.count['behind']}"


def read_words():
    words = argparse.ArgumentParser(description=__doc__, formatter_class=argparse.RawDescriptionHelpFormatter)
    words.add_argument("program")
    words.add_argument("--full", action="store_true")
    for kind in SHORT:
        words.add_argument(f"--{kind}", type=int, metavar="N")
    words.add_argument("--without", default="", metavar="NAMES")
    words.add_argument("--seed", type=int, default=1)
    words.add_argument("--images", type=int, default=4, help="of each instant")
    words.add_argument("--show", type=int, default=2, help="of each kind of wrong images so many are printed")
    words.add_argument("--keep", metavar="FOLDER", help="where wrong images are kept")
    return words.parse_args()


def wanted(options):
    """How many of each series: those that are given, or else all by the size."""
    given = {kind: getattr(options, kind) or 0 for kind in SHORT}
    if any(given.values()):
        return given
    sizes = FULL if options.full else SHORT
    return {kind: sizes[kind] if kind == "kills" or not options.without else 0 for kind in SHORT}


def is_allowed_strace():
    return subprocess.run(["strace", "-o", os.devnull, "true"], stderr=subprocess.DEVNULL, check=False).returncode == 0


def main():
    options = read_words()
    if shutil.which("strace") is None or not is_allowed_strace():
        print("after_a_kill: left out: strace is missing or isn't allowed here")
        return
    if options.keep:
        os.makedirs(options.keep, exist_ok=True)
    begun, came = time.time(), []
    with tempfile.TemporaryDirectory(dir="/dev/shm" if os.path.isdir("/dev/shm") else None) as room:
        for kind, count in wanted(options).items():
            series = Series(kind, options, room)
            if count:
                series.try_all(count)
                came.append(series)
                if options.full:
                    print(series.told(), flush=True)
    wrong = sum(series.count["wrong"] for series in came)
    print(f"after_a_kill: {'; '.join(series.told() for series in came)}; {time.time() - begun:.0f} s")
    sys.exit(1 if wrong else 0)


if __name__ == "__main__":
    main()
