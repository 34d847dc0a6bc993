"""The pages in memory, as the lines of one worker alone put them in, and how each line ends by them: a model for
random_runs.py. It follows docs/PAGES.md and docs/TREES.md, and knows nothing of the program."""
LEAF, FAN = 32, 64  # records of an array's leaf, pointers of its page above leaves
TREE_LEAF = 16  # records of a tree's leaf
ROWS = 16  # of a scan, at most
HELD, READ, POINTERS = 128, 256, 128  # what one transaction can keep
CHAIN = 63  # pages that came of one leaf: more are kept


class Ends(Exception):
    """A try ends: full, wide or in conflict."""


def path(storage, size, key):
    """The pages on the way to a key of an array, from the root's down."""
    if size <= LEAF:
        return [(storage, 0, 0)]
    leaf = (storage, 0, key // LEAF)
    if size <= LEAF * FAN:
        return [(storage, 1, 0), leaf]
    return [(storage, 2, 0), (storage, 1, key // (LEAF * FAN)), leaf]


class Pointer:
    """A pointer over a tree's keys: the page in memory, if there is one, and the snapshot's, as (low, high, pages
    below, keys); None where that has none."""

    def __init__(self, stored):
        self.page, self.stored = None, stored


class Leaf:
    """A leaf in memory with the keys of its records, and its halves and the separator, where it was split."""

    def __init__(self, low, high, keys):
        self.low, self.high, self.keys, self.halves = low, high, list(keys), None

    def chain(self):
        """The leaf with all that came of it."""
        return [self, *(page for half in self.halves or () for page in half.chain())]


class Inner:
    """A page above leaves, with the first key of each pointer."""

    def __init__(self, stored):
        self.lows = [page[0] for page in stored[2]]
        self.pointers = [Pointer(page) for page in stored[2]]


class Pages:
    """The pages in slots. Arrays' pages are those of `path`; of trees there are pointers at the roots."""

    def __init__(self, sizes, slots, trees, step):
        self.sizes, self.slots, self.step = sizes, slots, step
        self.there, self.in_trees = set(), 0
        self.roots = {storage: Pointer(page) for storage, page in trees.items()}

    def used(self):
        return len(self.there) + self.in_trees

    def outcome(self, state, ops, tries):
        """How a line ends: None for a commit, else full, wide or conflict."""
        for _ in range(tries):
            came = Try(self, state).run(ops)
            if came != "conflict":
                return came
        return "conflict"

    def drop(self, storage, new, is_new):
        """Takes a tree's pages out that are what the snapshot has: how many are dropped and kept. `is_new` tells of a
        key whether it was written since."""
        return self.drop_below(self.roots[storage], new, is_new)

    def drop_below(self, pointer, new, is_new):
        if new is not None:
            pointer.stored = new
        page = pointer.page
        if page is None:
            return 0, 0
        if isinstance(page, Leaf):
            pages, stored = page.chain(), keys_below(new)
            is_new_in = any(is_new(key, stored) for leaf in pages if not leaf.halves for key in leaf.keys)
            return self.taken(pointer, len(pages) > CHAIN or is_new_in, len(pages))
        if new is None or new[2] is None or [below[0] for below in new[2]] != page.lows:
            return 0, 1
        counts = [self.drop_below(below, child, is_new) for below, child in zip(page.pointers, new[2])]
        last = self.taken(pointer, any(below.page for below in page.pointers), 1)
        return tuple(map(sum, zip(last, *counts)))

    def taken(self, pointer, is_kept, count):
        """Pages that came of one leaf go whole, or stay."""
        if is_kept:
            return 0, count
        pointer.page, self.in_trees = None, self.in_trees - count
        return count, 0


def keys_below(stored):
    """All keys of a tree's page of a snapshot, in it or below."""
    if stored is None:
        return []
    return stored[3] if stored[2] is None else [key for below in stored[2] for key in keys_below(below)]


class Try:
    """One try of a line: what it keeps and holds."""

    def __init__(self, pages, state):
        self.pages, self.state = pages, state
        self.holds, self.pointers, self.heads, self.reads, self.own = set(), set(), set(), set(), set()

    def run(self, ops):
        try:
            for count, op in enumerate(ops):
                self.values = self.pages.step(self.state, ops[:count])[2]
                self.do(op)
                if self.pages.step(self.state, ops[:count + 1])[0] != "ok":
                    return None
        except Ends as ends:
            return str(ends)
        return None

    def do(self, op):
        if op[0] == "s":
            return self.scan(*op[1:])
        key = op[1], op[2]
        is_tree = op[1] in self.pages.roots
        if op[0] == "r":
            return self.read(key) if is_tree else self.read_value(key)
        if key in self.own:
            return None
        if op[0] != "w":
            (self.bring if is_tree else self.bring_value)(key)
            (self.read if is_tree else self.read_value)(key)
            if op[0] == "d" and self.state.get(key, self.values) is None or not self.is_taken(op):
                return None
        (self.place if is_tree else self.bring_value)(key)
        self.own.add(key)
        return None

    def is_taken(self, op):
        """Whether an addition or a subtraction has a sum."""
        now = self.state.get((op[1], op[2]), self.values) or 0
        return op[0] == "d" or (now + op[3] < 2**64 if op[0] == "a" else now >= op[3])

    # What it keeps.
    def hold(self, page):
        if page not in self.holds and len(self.holds) == HELD:
            raise Ends("wide")
        self.holds.add(page)

    def keep_pointer(self, pointer):
        if pointer not in self.pointers and len(self.pointers) == POINTERS:
            raise Ends("wide")
        self.pointers.add(pointer)

    def keep(self, kept, what):
        if what not in kept and len(self.reads) + len(self.heads) == READ:
            raise Ends("wide")
        kept.add(what)

    # Arrays.
    def read_value(self, key):
        if key in self.own or key in self.reads:
            return
        for page in path(key[0], self.pages.sizes[key[0]], key[1]):
            if page not in self.pages.there:
                return self.keep_pointer(page)
            self.hold(page)
        self.keep(self.reads, key)

    def bring_value(self, key):
        way = path(key[0], self.pages.sizes[key[0]], key[1])
        moved = False
        for page in way:
            if page not in self.pages.there:
                if self.pages.used() == self.pages.slots:
                    raise Ends("full")
                self.pages.there.add(page)
                moved = moved or page in self.pointers
            self.hold(page)
        if moved:
            raise Ends("conflict")

    # Trees.
    def walk(self, key):
        """The pointer at which the way in memory ends, or the leaf."""
        pointer = self.pages.roots[key[0]]
        while isinstance(pointer.page, Inner):
            self.hold(pointer.page)
            lows = pointer.page.lows
            pointer = pointer.page.pointers[max(place for place, low in enumerate(lows) if low <= key[1] or not place)]
        leaf = pointer.page
        while leaf:
            self.hold(leaf)
            if not leaf.halves:
                return leaf
            leaf = leaf.halves[key[1] >= leaf.halves[1].low]
        return pointer

    def read(self, key):
        if key in self.own or key in self.reads:
            return
        end = self.walk(key)
        if isinstance(end, Pointer):
            self.keep_pointer(end)
        elif key[1] in end.keys:
            self.keep(self.reads, key)
        else:
            self.keep(self.heads, end)

    def bring(self, key):
        end = self.walk(key)
        while isinstance(end, Pointer):
            if len(self.holds) == HELD:
                raise Ends("wide")
            if self.pages.used() == self.pages.slots:
                raise Ends("full")
            self.pages.in_trees += 1
            low, high, below, keys = end.stored or (0, 2**64 - 1, None, [])
            end.page = Leaf(low, high, keys) if below is None else Inner(end.stored)
            self.hold(end.page)
            if end in self.pointers:
                raise Ends("conflict")
            end = self.walk(key)
        return end

    def place(self, key):
        """The key gets a record where it has none."""
        if key in self.reads:
            return
        leaf = self.bring(key)
        if key[1] in leaf.keys:
            return
        if leaf in self.heads and len(self.reads) + len(self.heads) == READ:
            raise Ends("wide")
        if len(leaf.keys) == TREE_LEAF:
            self.split(key, leaf)
        else:
            leaf.keys.append(key[1])
            if leaf in self.heads:
                self.reads.add(key)

    def split(self, key, leaf):
        if len(self.holds) == HELD:
            raise Ends("wide")
        if self.pages.used() + 2 > self.pages.slots:
            raise Ends("full")
        self.pages.in_trees += 2
        keys = sorted([*leaf.keys, key[1]])
        separator = keys[TREE_LEAF // 2]
        leaf.halves = Leaf(leaf.low, separator - 1, keys[:8]), Leaf(separator, leaf.high, keys[8:])
        self.hold(leaf.halves[key[1] >= separator])
        mine = {(key[0], other) for other in leaf.keys}
        if leaf in self.heads or not mine.isdisjoint(self.reads | self.own):
            raise Ends("conflict")

    def scan(self, storage, low, high):
        rows = 0
        while low <= high and rows < ROWS:
            if (storage, low) in self.own:
                rows += self.state.get((storage, low), self.values) is not None
                low += 1
                continue
            last = min([key - 1 for at, key in self.own if at == storage and low < key <= high] + [high])
            end = self.walk((storage, low))
            if isinstance(end, Pointer):
                low, more = self.scan_stored(end, storage, low, last, ROWS - rows)
            else:
                low, more = self.scan_leaf(end, storage, low, last, ROWS - rows)
            rows += more

    def scan_leaf(self, leaf, storage, low, last, room):
        """From where it goes on, and how many rows there were."""
        self.keep(self.heads, leaf)
        rows, top = 0, min(last, leaf.high)
        for key in sorted(key for key in leaf.keys if low <= key <= top):
            self.keep(self.reads, (storage, key))
            rows += self.state.get((storage, key), {}) is not None
            if rows == room:
                return key + 1, rows
        return top + 1, rows

    def scan_stored(self, pointer, storage, low, last, room):
        self.keep_pointer(pointer)
        page = pointer.stored or (0, 2**64 - 1, None, [])
        while page[2]:
            page = max((child for child in page[2] if child[0] <= low), key=lambda child: child[0])
        keys = [key for key in page[3] if low <= key <= last][:room]
        if len(keys) == room:
            return keys[-1] + 1, room
        return min(last, page[1]) + 1, len(keys)
