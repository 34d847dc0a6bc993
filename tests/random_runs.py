#!/usr/bin/env python3
"""Runs scripts over arrays and trees that a number makes, and replays all that is told by a serial model of its own:
each line has one outcome; the commits, in order of their numbers, give each reply and each verdict one after another,
so that a scan beside lines which add and remove keys has no phantom; epochs, savepoints and snapshots are those that
the rounds and their lines of the maintenance thread ask for, with as many new pages as the keys that changed lie in; a
dump and each snapshot have the state through their epoch. Of one worker's lines it also says which are `full`, `wide`
or in `conflict`, by the pages that the lines before put into slots and that drops took out (lone_pages.py). A drop keeps
each page of an array that a value was written in, or below, since the newest snapshot; without lines beside it no other
one, and of trees those that the same model keeps.
Some runs are killed at a random moment: what is kept then is the state through an epoch that covers what was told
durable. Three to six runs in a row use one database.

Usage: tests/random_runs.py PROGRAM [CHAINS [SEED [LINES]]], where PROGRAM is the built program,
crates/foedus/out/foedus. CHAINS, 20 if it is left out, is how many databases are made; LINES, 150 if it is left out,
the most lines of a worker in a round. Databases are made in TMPDIR. Status: 0 where all is right, else 1, and the
folder of the run that isn't stays.
"""
import bisect
import os
import random
import re
import shutil
import signal
import subprocess
import sys
import tempfile
import time

sys.path.insert(0, os.path.join(os.path.dirname(os.path.abspath(__file__)), "..", "tools"))
import vault_format  # noqa: E402
from lone_pages import ROWS, TREE_LEAF, Pages, path  # noqa: E402

TREE_FAN = 30  # pointers of a tree's page above leaves
MOST = 2**64 - 1
SLOTS = [4, 16, 64, 256, 4096]
TREE_KEYS = [(5, 1), (40, 3), (300, 1), (3000, 2**50 + 7), (20000, 11)]  # of a tree: how many keys, how far apart
SIZES = [1, 4, 31, 32, 33, 160, 1000, 2048, 2049, 5000, 70000, 131072]
OUTCOME = re.compile(r"(\d)\.(\d+) (?:(ok|short|over) (\d+):(\d+)((?: [-.0-9=,]+)*)|(conflict|full|wide))")


class Wrong(Exception):
    """What was told or kept isn't what it has to be."""


def demand(holds, *what):
    if not holds:
        raise Wrong(" ".join(str(word) for word in what))


class State:
    """The values by storage and key, of trees those that are there, with the keys of each tree in order."""

    def __init__(self, sizes, values=()):
        self.sizes, self.values = sizes, {}
        self.keys = {storage: [] for storage, size in sizes.items() if size is None}
        self.put(dict(values))

    def put(self, changes):
        """Puts values in; of a tree None takes the key out."""
        for (storage, key), value in changes.items():
            keys = self.keys.get(storage)
            if keys is not None and (value is None) == ((storage, key) in self.values):
                if value is None:
                    keys.pop(bisect.bisect_left(keys, key))
                else:
                    bisect.insort(keys, key)
            if value is None:
                self.values.pop((storage, key), None)
            else:
                self.values[storage, key] = value

    def copy(self):
        copied = State(self.sizes)
        copied.values = dict(self.values)
        copied.keys = {storage: list(keys) for storage, keys in self.keys.items()}
        return copied

    def get(self, key, own):
        """The value, 0 where an array has none, None where a tree has none."""
        if key in own:
            return own[key]
        return self.values.get(key, None if self.sizes[key[0]] is None else 0)

    def rows(self, storage, low, high, own):
        """The first rows of a range."""
        found, keys = [], self.keys[storage]
        mine = sorted(key for at, key in own if at == storage and low <= key <= high)
        place = bisect.bisect_left(keys, low)
        while len(found) < ROWS:
            theirs = keys[place] if place < len(keys) and keys[place] <= high else MOST + 1
            first = min([theirs, *mine[:1]])
            if first > high:
                break
            place += first == theirs
            mine = mine[1:] if mine[:1] == [first] else mine
            value = self.get((storage, first), own)
            if value is not None:
                found.append(f"{first}={value}")
        return found

    def shown(self):
        """What a dump tells: of arrays no value that is 0."""
        return {key: value for key, value in self.values.items() if value or self.sizes[key[0]] is None}


def step(state, ops):
    """The verdict, the replies and the changes of one transaction on a state. A change of a tree's key to None is a
    removal; a key that isn't there isn't removed."""
    own, replies = {}, []
    for op in ops:
        if op[0] == "s":
            replies.append(",".join(state.rows(*op[1:], own)) or ".")
            continue
        key = op[1], op[2]
        now = state.get(key, own)
        if op[0] == "r":
            replies.append("-" if now is None else str(now))
        elif op[0] == "d":
            if now is not None:
                own[key] = None
        elif op[0] == "w":
            own[key] = op[3]
        elif op[0] == "a":
            if (now or 0) + op[3] > MOST:
                return "over", replies, {}
            own[key] = (now or 0) + op[3]
        else:
            if (now or 0) < op[3]:
                return "short", replies, {}
            own[key] = (now or 0) - op[3]
    return "ok", replies, own


def cut(low, high, keys):
    """The pages that a tree's leaf with these keys becomes, and how many: a leaf, or its keys in runs below a page."""
    if len(keys) <= TREE_LEAF:
        return (low, high, None, keys), 1
    count = min(TREE_FAN, -(-len(keys) // TREE_LEAF))
    least, more = divmod(len(keys), count)
    runs, begin = [], 0
    for number in range(count):
        end = begin + least + (number < more)
        runs.append(keys[begin:end])
        begin = end
    lows = [low, *(run[0] for run in runs[1:])]
    below = [cut(lows[i], lows[i + 1] - 1 if i + 1 < count else high, run) for i, run in enumerate(runs)]
    return (low, high, [page for page, _ in below], None), 1 + sum(pages for _, pages in below)


def composed(page, keys, values):
    """A tree's page with these keys written or removed, as `values` has them, and how many pages are new."""
    if not keys:
        return page, 0
    low, high, below, stored = page or (0, MOST, None, [])
    if below is None:
        return cut(low, high, sorted({*stored, *keys} - {key for key in keys if key not in values}))
    parts = [composed(child, [key for key in keys if child[0] <= key <= child[1]], values) for child in below]
    return (low, high, [part for part, _ in parts], None), 1 + sum(new for _, new in parts)


def stored_tree(pages, number):
    """A tree's page of a snapshot, with all below it."""
    if number == 0:
        return None
    words = pages[number - 1]
    kind, count = words[0] >> 8, words[0] & 255
    if kind == 1:
        return words[1], words[2], None, [words[16 + 3 * place] for place in range(count)]
    return words[1], words[2], [stored_tree(pages, words[4 + place]) for place in range(count)], None


def declared(sizes):
    return "".join(f"tree {storage}\n" if size is None else f"array {storage} {size}\n"
                   for storage, size in sizes.items())


class Run:
    """A run's script: its options, and for each round the lines of each worker and of the keeper."""

    def __init__(self, draw, sizes, longest):
        self.sizes = sizes
        self.slots = draw.choice(SLOTS)
        self.tries = draw.choice([1, 2, 3, None, None, None])
        self.snap = 65536
        self.workers = sorted(draw.sample(range(8), draw.choice([1, 1, 2, 3, 4, 8])))
        self.adds = draw.random() < 0.3  # then values don't depend on the order
        self.hot = draw.choice([None, None, 1, 3, 40])
        self.near = draw.choice([1, 1, 33])
        longest = draw.choice([1, 5, longest // 4 + 1, longest])
        self.is_calm = draw.random() < 0.5  # then no line runs beside a drop
        self.rounds = [self.round(draw, longest) for _ in range(draw.choice([1, 2, 3, 6]))]
        while len(self.rounds) > 1 and not (any(self.rounds[-1][0].values()) or self.rounds[-1][1]):
            self.rounds.pop()  # the end right behind a join begins no round
        drops = [any(lines.values()) for lines, keeper in self.rounds if "drop" in keeper]
        self.has_drops = bool(drops)
        self.has_trees = None in sizes.values()
        self.is_lone = len(self.workers) == 1 and not any(drops)  # then its lines have one outcome

    def round(self, draw, longest):
        lines = {worker: [self.line(draw) for _ in range(draw.randrange(longest + 1))] for worker in self.workers}
        keeper = [draw.choice(["glean", "glean", "epoch", "save", "drop", "drop"])
                  for _ in range(draw.choice([0, 0, 1, 1, 2, 4]))]
        if self.adds:
            keeper = [line for line in keeper if line in ("glean", "drop")]
        if self.is_calm and "drop" in keeper:
            lines = {worker: [] for worker in self.workers}
        return lines, keeper

    def line(self, draw):
        return [self.op(draw) for _ in range(draw.choice([1, 1, 2, 3, 4, 8, 16]))]

    def key(self, draw, storage):
        size = self.sizes[storage]
        if size is None:
            spread, apart = TREE_KEYS[(storage + len(self.sizes)) % len(TREE_KEYS)]
            return draw.choice([0, MOST]) if draw.random() < 0.01 else draw.randrange(spread) * apart
        if self.hot is None:
            return draw.randrange(size)
        return draw.randrange(min(self.hot, size)) * self.near % size

    def op(self, draw):
        storage = draw.choice(list(self.sizes))
        key = self.key(draw, storage)
        kinds = "ra" if self.adds else "rrwat"
        if self.sizes[storage] is None:
            kinds = "rsa" if self.adds else "rswatdd"
        kind = draw.choice(kinds)
        if kind in "rd":
            return kind, storage, key
        if kind == "s":
            ends = [key, draw.choice([key, MOST, self.key(draw, storage), self.key(draw, storage)])]
            return kind, storage, *(ends if draw.random() < 0.1 else sorted(ends))
        small = draw.random() < 0.97
        if small or self.adds:
            return kind, storage, key, draw.randrange(10)
        return kind, storage, key, draw.choice([MOST, MOST - 5, 2**63, 99])

    def words(self, more=()):
        tries = [] if self.tries is None else ["--tries", str(self.tries)]
        snap = [] if self.snap == 65536 else ["--snap", str(self.snap)]
        return ["run", "--slots", str(self.slots), *tries, *snap, *more]

    def text(self):
        parts = [declared(self.sizes)]
        for number, (lines, keeper) in enumerate(self.rounds):
            parts.append("join\n" * (number > 0))
            parts += [f"{worker} " + "; ".join(" ".join(map(str, op)) for op in ops) + "\n"
                      for worker in self.workers for ops in lines[worker]]
            parts += [f"k {line}\n" for line in keeper]
        return "".join(parts)


class Kept:
    """What a database has to keep: an epoch with its state, the values through earlier ones, and its snapshots, with the
    pages of trees in the newest."""

    def __init__(self, sizes):
        self.sizes, self.epoch, self.state = sizes, 0, State(sizes)
        self.snaps = []  # pairs of epoch and page, the oldest first
        self.through = {0: {}}
        self.pending = set()  # keys in log entries that count for no snapshot yet; None where that isn't known
        self.count, self.is_known = 0, True
        self.trees = {storage: None for storage, size in sizes.items() if size is None}

    def composed(self, keys, values):
        """The trees of the next snapshot, of which these keys have changed, and how many pages are new."""
        arrays = {page for storage, key in keys if storage not in self.trees
                  for page in path(storage, self.sizes[storage], key)}
        trees, new = {}, len(arrays) + 1
        for storage, page in self.trees.items():
            theirs = [key for at, key in keys if at == storage]
            trees[storage], more = composed(page, theirs, {key for key in theirs if (storage, key) in values})
            new += more
        return trees, new

    def add(self, epoch, keys, values, room):
        """Makes a snapshot: how many pages are new, and whether there is room for them."""
        trees, new = self.composed(keys, values)
        if self.count + new > room:
            return new, False
        self.trees, self.count = trees, self.count + new
        self.snaps.append((epoch, self.count))
        return new, True

    def settle(self, snap):
        """What a run does before its first round: False where the pages would be more than are let in. Of what is
        settled behind a kill the trees' pages aren't known."""
        self.is_known = self.pending is not None
        if not self.snaps:
            self.snaps, self.count = [(0, 1)], 1
        if self.count > snap:
            return False
        if self.pending and not self.add(self.epoch, self.pending, self.state.values, snap)[1]:
            return False
        self.pending = set()
        return True

    def read_trees(self, folder):
        """The pages of trees as they are stored."""
        vault = vault_format.Vault(f"{folder}/vault")
        if vault.savepoint is None:
            return
        for storage in vault.snapshots[-1].storages:
            if storage.size is None:
                self.trees[storage.id] = stored_tree(vault.pages, storage.root)


class Replay:
    """Replays the rounds that a run told, on what the database kept."""

    def __init__(self, kept, run):
        self.kept, self.run = kept, run
        self.clock, self.draws, self.saved = kept.epoch + 1, 0, kept.epoch
        self.state, self.commits, self.told = kept.state.copy(), 0, 0
        self.active, self.closed, self.closed_at = set(), None, kept.epoch
        is_known = run.is_lone and (kept.is_known or not run.has_trees)
        self.pages = Pages(run.sizes, run.slots, kept.trees, step) if is_known else None
        self.written, self.last = set(), {}

    def round(self, number, text):
        """Replays a round, whose lines are the next ones of the text, up to its durable line."""
        lines, keeper = self.run.rounds[number]
        commits, refused = [], []
        for worker in self.run.workers:
            for place, ops in enumerate(lines[worker]):
                came = OUTCOME.fullmatch(next(text, ""))
                demand(came and (int(came[1]), int(came[2])) == (worker, place), "no outcome of", worker, place)
                if came[7]:
                    refused.append((worker, place, ops, came[7]))
                else:
                    replies = came[6].split()
                    commits.append(((int(came[4]), int(came[5])), worker, place, ops, came[3], replies))
        begun = self.clock
        for place, line in enumerate(keeper):
            self.keeper(line, next(text, ""), f"k.{place} ", lines)
        self.ordered(commits, begun)
        if self.pages:
            self.lone(lines[self.run.workers[0]], {place: what for _, place, _, what in refused})
        else:
            self.refusals(refused)
        changed = self.serial(commits)
        told = next(text, "")
        demand(told == f"durable {self.clock}", told, "not durable", self.clock)
        self.joined(changed)

    def ordered(self, commits, begun):
        """Numbers are new, rise along each worker's lines, and lie in the round's epochs."""
        last = {}
        for number, worker, place, *_ in commits:
            demand(last.get(worker, (0, self.draws)) < number, "numbers of", worker, place, number)
            demand(begun <= number[0] <= self.clock and number[1] > self.draws, "number", number, worker, place)
            last[worker] = number
        demand(len({number[1] for number, *_ in commits}) == len(commits), "a draw twice")
        if self.pages:
            wanted = list(range(self.draws + 1, self.draws + 1 + len(commits)))
            demand([number[1] for number, *_ in commits] == wanted, "draws of one worker", wanted)
        self.draws = max([self.draws, *(number[1] for number, *_ in commits)])

    def serial(self, commits):
        """Replays the commits in order of their numbers, and answers the keys that they changed."""
        changed, epoch = set(), None
        for number, worker, place, ops, verdict, replies in sorted(commits):
            if epoch is not None and number[0] != epoch:
                self.kept.through.update({between: dict(self.state.values) for between in range(epoch, number[0])})
            epoch = number[0]
            wanted = step(self.state, ops)
            demand((verdict, replies) == wanted[:2], worker, place, number, verdict, replies, "not", wanted[:2])
            self.state.put(wanted[2])
            changed.update(wanted[2])
            self.last.update(dict.fromkeys(wanted[2], number))
        self.commits += len(commits)
        self.between(commits, epoch)
        self.written.update(changed)
        used = len(self.unlike() if self.run.has_drops else self.ways(self.written))
        demand(used <= self.run.slots, used, "pages were written in", self.run.slots, "slots")
        return changed

    def between(self, commits, epoch):
        """The states through the epochs of this round in which nothing was committed."""
        first = min((number[0] for number, *_ in commits), default=self.clock)
        before = self.kept.through[self.saved_before()]
        for earlier in range(self.saved_before() + 1, first):
            self.kept.through.setdefault(earlier, dict(before))
        for later in range(epoch if epoch is not None else self.clock, self.clock + 1):
            self.kept.through[later] = dict(self.state.values)

    def saved_before(self):
        return self.joined_at if hasattr(self, "joined_at") else self.kept.epoch

    def lone(self, lines, refused):
        """Of one worker alone the model tells which lines were refused, and why."""
        tries = 1000 if self.run.tries is None else self.run.tries
        state = self.state.copy()
        for place, ops in enumerate(lines):
            wanted = self.pages.outcome(state, ops, tries)
            demand(refused.get(place) == wanted, "line", place, "of one worker is", refused.get(place), "not", wanted)
            if wanted is None:
                state.put(step(state, ops)[2])

    def refusals(self, refused):
        """No line is full while there are slots for all pages that were asked for, and for one more of each worker, and
        none is wide that isn't on a tree."""
        ops = [op for lines, _ in self.run.rounds for line in lines.values() for ops in line for op in ops]
        asked = {(op[1], op[2]) for op in ops if op[0] not in "rs"}
        held = 50 if self.run.has_drops else 2  # a worker may hold slots of pages that were dropped meanwhile
        most = len(self.ways(asked)) + held * len(self.run.workers)
        for storage in self.kept.trees:
            most += self.most_pages(storage, sum(at == storage for at, _ in asked))
        for worker, place, ops, what in refused:
            demand(what != "full" or most > self.run.slots, worker, place, "is full")
            demand(what != "wide" or any(op[1] in self.kept.trees for op in ops), worker, place, "is wide")

    def most_pages(self, storage, keys):
        """No more pages of a tree are in memory than this: a split takes two slots, and eight keys that are new to the
        leaf, unless that came from a snapshot."""
        if self.run.has_drops and keys:
            return 4096
        leaves, inner = 0, 0
        below = [self.kept.trees[storage] or (0, MOST, None, [])]
        while below:
            page = below.pop()
            below += page[2] or []
            leaves, inner = leaves + (page[2] is None), inner + (page[2] is not None)
        leaves = min(leaves, keys)
        return inner + leaves + 2 * (leaves + keys // 8)

    def ways(self, keys):
        """The pages of arrays in which these keys lie, or below."""
        return {page for storage, key in keys if storage not in self.kept.trees
                for page in path(storage, self.run.sizes[storage], key)}

    def unlike(self):
        """The pages of arrays that aren't what the newest snapshot has, for a value in them or below them."""
        return self.ways(key for key, number in self.last.items() if number[0] > self.kept.snaps[-1][0])

    def drop(self, told, head, lines):
        """Each page is met once, and kept where it is unlike. Lines beside it may make others unlike meanwhile; of trees
        it isn't said which are."""
        came = re.fullmatch(re.escape(head) + r"drop (\d+) kept (\d+)", told)
        demand(came, told)
        dropped, kept, unlike = int(came[1]), int(came[2]), self.unlike()
        asked = {(op[1], op[2]) for mine in lines.values() for ops in mine for op in ops if op[0] not in "rs"}
        most = len(unlike | self.ways(asked)) + 4096 * self.run.has_trees
        demand(len(unlike) <= kept <= most, told, len(unlike))
        demand(asked or dropped + kept <= self.run.slots, told)
        if self.pages:
            counts = [self.pages.drop(storage, page, lambda key, stored, at=storage: self.is_new((at, key), stored))
                      for storage, page in self.kept.trees.items()]
            wanted = len(self.pages.there - unlike), len(unlike)
            wanted = tuple(map(sum, zip(wanted, *counts)))
            demand((dropped, kept) == wanted, told, wanted)
            self.pages.there = unlike

    def is_new(self, key, stored):
        """Whether a tree's record isn't as the newest snapshot's, which has these keys there."""
        number = self.last.get(key, (0, 0))
        if key in self.state.values:
            return number[0] > self.kept.snaps[-1][0]
        return key[1] in stored or number[0] > max(self.closed_at, self.kept.snaps[-1][0])

    def keeper(self, line, told, head, lines):
        if line == "epoch":
            self.clock += 1
            demand(told == f"{head}epoch {self.clock}", told)
        elif line == "save":
            came = re.fullmatch(re.escape(head) + r"save (\d+)", told)
            demand(came and self.saved <= int(came[1]) < self.clock, told, self.saved, self.clock)
            self.saved = int(came[1])
        elif line == "drop":
            self.drop(told, head, lines)
        elif not self.closed:
            demand(told == f"{head}none", told)
        else:
            values = self.kept.through[self.closed_at]
            new, has_room = self.kept.add(self.closed_at, self.closed, values, self.run.snap)
            if not has_room:
                demand(told == f"{head}snap-full", told, self.kept.count, new)
                return
            if not self.kept.is_known and self.run.has_trees:
                new = told.rpartition(" ")[2]  # how many pages of trees it has to have isn't known
            demand(told == f"{head}snap {self.closed_at} new {new}", told, self.closed_at, new)
            self.closed = None

    def joined(self, changed):
        """What the join does: the epoch goes on, and the log files change sides."""
        self.active |= changed
        self.saved = self.joined_at = self.told = self.clock
        self.clock += 1
        if not self.closed:
            self.closed, self.closed_at, self.active = self.active, self.saved, set()
        self.kept.epoch, self.kept.state = self.saved, self.state.copy()
        self.kept.pending = self.active | (self.closed or set())


def call(folder, *words, script=""):
    done = subprocess.run([PROGRAM, *words], cwd=folder, input=script.encode(), stdout=subprocess.PIPE,
                          stderr=subprocess.PIPE, timeout=300)
    return done.returncode, done.stdout.decode()


def rows(state):
    return "".join(f"{storage} {key} {value}\n" for (storage, key), value in sorted(state.shown().items()))


def parsed(text):
    """The epoch and the values that a dump tells."""
    first, *rest = text.splitlines()
    return int(first.split()[1]), {(int(a), int(b)): int(c) for a, b, c in (line.split() for line in rest)}


def check_kept(folder, kept):
    """A dump, the list of snapshots, and each of them."""
    demand(call(folder, "dump") == (0, f"epoch {kept.epoch}\n{rows(kept.state)}"), "dump of", kept.epoch)
    listed = "".join(f"snap {epoch} at {page}\n" for epoch, page in kept.snaps)
    demand(call(folder, "snaps") == (0, listed), "snaps", call(folder, "snaps"), listed)
    for epoch, _ in kept.snaps[-3:]:
        if epoch in kept.through:
            wanted = 0, f"epoch {epoch}\n{rows(State(kept.sizes, kept.through[epoch]))}"
            demand(call(folder, "snap", str(epoch)) == wanted, "snap", epoch)


def whole_run(folder, kept, run):
    """A run that nobody ends, and the same in brief over a copy where one worker's lines have one outcome."""
    brief = f"{folder}/brief"
    shutil.rmtree(brief, ignore_errors=True)
    if run.is_lone:
        os.mkdir(brief)
        if os.path.isdir(f"{folder}/vault"):
            shutil.copytree(f"{folder}/vault", f"{brief}/vault")
    status, text = call(folder, *run.words(), script=run.text())
    with open(f"{folder}/text", "w") as file:
        file.write(text)
    if not kept.settle(run.snap):
        demand((status, text) == (7, "limit snap\n"), status, text[:200])
        return 0
    replay, lines = Replay(kept, run), iter(text.splitlines())
    demand(status == 0, status, text[-200:])
    for number in range(len(run.rounds)):
        replay.round(number, lines)
    demand(next(lines, None) is None, "more lines than rounds have")
    if os.path.isdir(brief):
        wanted = f"commits {replay.commits}\ntotal {sum(replay.state.values.values())}\ndurable {replay.told}\n"
        demand(call(brief, *run.words(["--brief"]), script=run.text()) == (0, wanted), "in brief, not", wanted)
    return replay.commits


def killed_run(folder, kept, run, draw, longest):
    """A run that is killed: the rounds that were told are replayed, and what is kept is a state behind them."""
    settled = kept.settle(run.snap)
    demand(settled, "no room")
    with open(f"{folder}/script", "w") as file:
        file.write(run.text())
    with open(f"{folder}/script") as source, open(f"{folder}/text", "w") as text:
        begun = subprocess.Popen([PROGRAM, *run.words()], cwd=folder, stdin=source, stdout=text,
                                 stderr=subprocess.DEVNULL)
        time.sleep(draw.random() * longest)
        begun.send_signal(signal.SIGKILL)
        begun.wait()
    text = open(f"{folder}/text").read()
    lines = text[:text.rfind("\n") + 1].splitlines()
    rounds = sum(line.startswith("durable") for line in lines)
    replay, told = Replay(kept, run), iter(lines)
    for number in range(rounds):
        replay.round(number, told)
    status, dump = call(folder, "dump")
    demand(status == 0, "dump:", status, dump)
    epoch, state = parsed(dump)
    behind(kept, run, replay, rounds, epoch, state)
    kept.pending = None
    kept.epoch, kept.state = epoch, State(kept.sizes, state)
    kept.through = {e: s for e, s in kept.through.items() if e < epoch}
    kept.through[epoch] = state
    status, snaps = call(folder, "snaps")
    demand(status == 0, "snaps:", status, snaps)
    kept.snaps = [(int(line.split()[1]), int(line.split()[3])) for line in snaps.splitlines()]
    kept.count = kept.snaps[-1][1] if kept.snaps else 0
    for of, _ in kept.snaps[-3:]:
        if of in kept.through:
            wanted = 0, f"epoch {of}\n{rows(State(kept.sizes, kept.through[of]))}"
            demand(call(folder, "snap", str(of)) == wanted, "snap", of)
    return replay.commits, rounds < len(run.rounds)


def behind(kept, run, replay, rounds, epoch, state):
    """Whether a state is one behind what was told: as of the last durable epoch, or by lines of the next round."""
    last = kept.epoch
    demand(epoch >= last, "epoch", last, "was told durable, and", epoch, "is kept")
    if epoch == last:
        demand(state == kept.state.shown(), "kept as of", epoch)
        return
    demand(rounds < len(run.rounds), "epoch", epoch, "behind the last one,", last)
    lines, keeper = run.rounds[rounds]
    demand(epoch <= last + 1 + sum(line == "epoch" for line in keeper), "epoch", epoch, "behind", last)
    is_whole = epoch == replay.clock and "epoch" not in keeper
    if replay.pages:
        now, states = replay.state.copy(), [replay.state.shown()]
        for ops in lines[run.workers[0]]:
            if replay.pages.outcome(now, ops, 1000 if run.tries is None else run.tries) is None:
                now.put(step(now, ops)[2])
            states.append(now.shown())
        states = states[-1:] if is_whole else states
        demand(state in states, "kept by", epoch)
    elif run.adds and is_whole and run.tries is None and run.slots == 4096:
        wanted = replay.state.copy()
        for line in lines.values():
            for ops in line:
                wanted.put(step(wanted, ops)[2])
        demand(run.has_trees or state == wanted.shown(), "sums kept by", epoch)


def chain(folder, draw, longest, counts):
    """Some runs over one database."""
    trees = draw.choice([0, 0, 0.5, 1])
    sizes = {storage: None if draw.random() < trees else draw.choice(SIZES)
             for storage in sorted(draw.sample(range(256), draw.choice([1, 1, 2, 4])))}
    kept = Kept(sizes)
    for _ in range(draw.randrange(3, 7)):
        run = Run(draw, sizes, longest)
        if kept.count and kept.pending is not None and draw.random() < 0.1:
            run.snap = draw.randrange(max(kept.count - 2, 1), kept.count + 60)
        is_killed = draw.random() < 0.3
        if is_killed or kept.pending is None:  # behind a kill it isn't told how much a run settles
            run.snap = 65536
        if is_killed:
            run.rounds = run.rounds * draw.choice([1, 10, 60])
        with open(f"{folder}/run", "w") as file:
            file.write(f"{run.words()}\n{run.text()}")
        shutil.rmtree(f"{folder}/before", ignore_errors=True)
        if os.path.isdir(f"{folder}/vault"):
            shutil.copytree(f"{folder}/vault", f"{folder}/before")
        counts["runs"] += 1
        if is_killed:
            commits, was_within = killed_run(folder, kept, run, draw, draw.choice([0.4, 0.1, 0.02]))
            counts["killed"] += 1
            counts["within"] += was_within
        else:
            commits = known_count(folder, kept, run)
        counts["commits"] += commits


def known_count(folder, kept, run):
    """A whole run; behind a kill what it settles first is learned from the list of snapshots."""
    if kept.pending is None:
        kept.pending = set()
        snaps = kept.snaps
        demand(call(folder, "run", script=declared(run.sizes))[0] == 0, "settle")
        told = call(folder, "snaps")[1].splitlines()
        now = [(int(line.split()[1]), int(line.split()[3])) for line in told]
        demand(now[:len(snaps)] == snaps and len(now) <= len(snaps) + 1, "snaps", now, "not", snaps)
        demand(all(epoch == kept.epoch for epoch, _ in now[len(snaps):]), "settled", now, kept.epoch)
        kept.snaps, kept.count = now, now[-1][1]
        kept.epoch += 1
        kept.through[kept.epoch] = kept.through[kept.epoch - 1]
        kept.read_trees(folder)
    commits = whole_run(folder, kept, run)
    check_kept(folder, kept)
    return commits


def main():
    global PROGRAM
    if len(sys.argv) < 2:
        sys.exit(__doc__)
    PROGRAM = os.path.abspath(sys.argv[1])
    chains, seed, longest = [int(word) for word in sys.argv[2:]] + [20, 1, 150][len(sys.argv) - 2:]
    counts = {"runs": 0, "killed": 0, "within": 0, "commits": 0}
    for number in range(seed, seed + chains):
        folder = tempfile.mkdtemp(prefix="foedus_random_")
        try:
            chain(folder, random.Random(number), longest, counts)
        except Wrong as error:
            sys.exit(f"seed {number}: {error}; the run is in {folder}/run")
        shutil.rmtree(folder)
    print(f"{chains} databases, {counts['runs']} runs, {counts['killed']} killed, {counts['within']} of them before "
          f"their last round; {counts['commits']} commits replayed: all right")


if __name__ == "__main__":
    if len(sys.argv) < 2 or {"-h", "--help"} & set(sys.argv):
        print(__doc__)
        sys.exit(len(sys.argv) < 2)
    main()
