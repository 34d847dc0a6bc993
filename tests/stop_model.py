"""What a system shows of a folder with a database, what is on the device, and what a stop of the machine may leave.

Until a file's next sync each write and cut since the last one may be found done, left out, done in part or with other
bytes in its range. Until the folder's next sync each name that was made, changed or removed since the last one may be
found as it was; and until the next sync of the folder around, a folder that was made may be missing.
"""
BLOCK, SECTOR = 4096, 512
VALID = 0xA5


class File:
    def __init__(self, data=b""):
        self.kept = bytearray(data)  # what is on the device
        self.shown = bytearray(data)  # what reads give
        self.waits = []  # what was called since the last sync
        self.is_forgotten = False  # whether reads give what no sync brings any more

    def change(self, kind, more):
        """A write or a cut."""
        do(self.shown, kind, more)
        self.waits.append((kind, more))
        if self.is_forgotten and kind == "write":
            # the system writes whole blocks, and so sectors again that it had forgotten, each of them at once
            at, data = more
            end = min(-(-(at + len(data)) // BLOCK) * BLOCK, len(self.shown))
            for sector in range(at // BLOCK * BLOCK, end, SECTOR):
                self.waits.append(("sector", (sector, bytes(self.shown[sector:sector + SECTOR]))))

    def sync(self):
        for call in self.waits:
            do(self.kept, *call)
        self.waits = []

    def forget(self, some_arrived):
        """A sync that failed: what waited came to the device or never does, and the next sync won't bring it."""
        for call in self.waits:
            if call[0] == "cut" or some_arrived:
                do(self.kept, *call)
        self.waits = []
        self.is_forgotten = True

    def has_open_place_pending(self):
        return any(kind == "write" and more[1] == bytes([VALID]) for kind, more in self.waits)

    def image(self, draw, how, equal_stays):
        """What a stop may leave of it: `all` is done, or `none`, or anything between."""
        data = bytearray(self.kept)
        for call in self.waits:
            if how == "all":
                do(data, *call)
            elif how == "any":
                do_in_part(data, *call, draw, equal_stays)
        return bytes(data)


def do(data, kind, more):
    """Does a write or a cut to bytes."""
    at = more if kind == "cut" else more[0]
    data.extend(bytes(max(0, at - len(data))))
    if kind == "cut":
        del data[at:]
    else:
        data[at:at + len(more[1])] = more[1]


def noise(draw, count):
    return bytes(draw.getrandbits(8) for _ in range(count))


def do_in_part(data, kind, more, draw, equal_stays):
    """Does what a stop may leave of a write or a cut. Where equal bytes stay, a write of them changes nothing."""
    if kind == "sector":
        if draw.random() < 0.5:
            do(data, kind, more)
    elif kind == "cut":
        cut_in_part(data, more, draw)
    elif not (equal_stays and data[more[0]:more[0] + len(more[1])] == more[1]):
        part = part_of(data, *more, draw)
        if part:
            do(data, "write", (more[0], part))


def cut_in_part(data, length, draw):
    if len(data) > length and draw.random() < 0.7:
        del data[draw.randrange(length, len(data) + 1):]
        if draw.random() < 0.4:
            data[length:] = noise(draw, len(data) - length)


def part_of(data, at, written, draw):
    """What a stop within a write may leave of its bytes: none, all, the first ones, noise, others, or old ones."""
    part = bytearray(written)
    how = draw.choice(("none", "all", "front", "noise", "others", "mixed"))
    if how in ("none", "front"):
        return part[:draw.randrange(len(part) + 1) if how == "front" else 0]
    if how == "noise":
        return noise(draw, len(part))
    if how == "others":
        for _ in range(draw.randrange(1, 4)):
            part[draw.randrange(len(part))] = draw.choice((0, VALID, 0xFF, draw.randrange(256)))
    if how == "mixed":
        old = bytes(data[at:at + len(part)]).ljust(len(part), b"\0")
        for begin in range(0, len(part), 64):
            if draw.random() < 0.5:
                part[begin:begin + 64] = old[begin:begin + 64]
    return part


class Folder:
    """A folder around, and in it the folder of a database, or none."""

    def __init__(self, files, is_copy=False):
        """All of it was synced, but for a copy, of which nothing was. None is no folder."""
        self.is_there = files is not None
        self.is_kept = self.is_there and not is_copy
        self.names = {name: File(b"" if is_copy else data) for name, data in (files or {}).items()}
        self.kept = {} if is_copy else dict(self.names)  # the names that are on the device
        self.waits = []  # what was done to names since the folder's last sync
        for name, file in self.names.items():
            if is_copy:
                self.waits.append(lambda names, name=name, file=file: {**names, name: file})
                if files[name]:
                    file.change("write", (0, files[name]))

    def call(self, event):
        """What a call does here."""
        if event.kind in ("write", "cut"):
            file, more = self.names[event.name], event.more
            if event.kind == "write" and more[0] is None:
                more = (len(file.shown), more[1])
            file.change(event.kind, more)
        elif event.kind == "synced":
            self.names[event.name].sync()
        elif event.kind == "not synced":
            # of three in ten all arrived that waited, by a choice that each run over the same record makes again
            self.names[event.name].forget(event.begin * 7919 % 101 < 30)
        else:
            self.change_names(event)

    def change_names(self, event):
        name = event.name
        if event.kind == "folder made":
            self.is_there = True
        elif event.kind == "around synced":
            self.is_kept = self.is_there
        elif event.kind == "folder synced":
            for step in self.waits:
                self.kept = step(self.kept)
            self.waits = []
        elif event.kind == "made" and name not in self.names:
            self.do(lambda names, file=File(): {**names, name: file})
        elif event.kind in ("renamed", "linked"):
            file, gone = self.names[name], {name} if event.kind == "renamed" else set()
            self.do(lambda names: {**{its: names[its] for its in names if its not in gone}, event.more: file})
        elif event.kind == "removed":
            self.do(lambda names: {its: names[its] for its in names if its != name})

    def do(self, step):
        self.names = step(self.names)
        self.waits.append(step)

    def shown(self):
        """The files as the system shows them, or None where there is no folder."""
        return {name: bytes(file.shown) for name, file in self.names.items()} if self.is_there else None

    def has_name_pending(self):
        return bool(self.waits) or self.is_kept != self.is_there

    def is_pending(self):
        return self.has_name_pending() or any(file.waits for file in self.names.values())

    def image(self, draw, how, equal_stays):
        """What a stop may leave: all that waits is done, or none of it, or anything between."""
        if how != "all" and not self.is_kept and (how == "none" or draw.random() < 0.5):
            return None
        if not self.is_there:
            return None
        names = self.kept
        for step in self.waits:
            if how == "all" or how == "any" and draw.random() < 0.5:
                names = step(names)
        files = {}
        for name, file in names.items():
            its = draw.choice(("all", "none", "any")) if how == "any" else how
            files[name] = file.image(draw, its, equal_stays)
        return files
