"""What a run did to the database in the folder `vault`, and what it printed, as strace recorded its calls."""
import os
import re
import subprocess
from collections import namedtuple

FILES = ["save", "snaps", *(f"bank{number}" for number in range(16))]
CALLS = ("openat,mkdir,mkdirat,rename,renameat,renameat2,link,linkat,unlink,unlinkat,write,pwrite64,ftruncate,"
         "fsync,fdatasync")
LINE = re.compile(r"^(\d+) +(?:(\w+)\((.*)$|<\.\.\. (\w+) resumed>(.*)$)")
UNFINISHED = "<unfinished ...>"
TEXT = re.compile(r'"((?:\\x[0-9a-f]{2})*)"')
DESCRIPTOR = re.compile(r"(\d+)<((?:\\x[0-9a-f]{2})*)>")
NEVER = 10**9

# A call: what it does, to which file of the folder, the instants at which it begins and ends (None: it doesn't), and
# more of it. An instant is the number of a line of the record.
Event = namedtuple("Event", "kind name begin end more")


def bytes_of(text):
    """The bytes of a string as strace prints it, each as \\xNN."""
    return bytes.fromhex(text.replace("\\x", ""))


def path_of(text):
    return bytes_of(text).decode("utf-8", "replace")


def record(program, words, script, folder, failing_sync=None):
    """Runs the program, and answers how it ended and what it did. Each thread's sync of that number fails."""
    fails = ["-e", f"inject=fsync,fdatasync:error=EIO:when={failing_sync}"] if failing_sync else []
    traced = ["strace", "-f", "-y", "-xx", "-s", "2000000", "-e", f"trace={CALLS}", *fails, "-o", "calls"]
    done = subprocess.run([*traced, program, *words], input=script, cwd=folder, stdout=subprocess.PIPE,
                          stderr=subprocess.PIPE, timeout=120, check=False)
    around = os.path.realpath(folder)
    events = []
    for call, rest, begin, end in calls_in(f"{folder}/calls"):
        does = event_of(call, rest, around)
        if does:
            events.append(Event(does[0], does[1], begin, end, does[2]))
    return done, events


def calls_in(record_file):
    """The calls of a record in the order of their begins: the name, what it was given and answered, begin and end."""
    calls, waiting = [], {}
    with open(record_file, encoding="latin-1") as lines:
        for number, line in enumerate(lines, 1):
            found = LINE.match(line.rstrip("\n"))
            if not found:
                continue
            thread, call, rest, _, tail = found.groups()
            if call and rest.endswith(UNFINISHED):
                waiting[thread] = len(calls)
                calls.append([call, rest[:-len(UNFINISHED)], number, None])
            elif call:
                calls.append([call, rest, number, number])
            elif thread in waiting:
                begun = calls[waiting.pop(thread)]
                begun[1] += tail
                begun[3] = number
    return calls


def event_of(call, rest, around):
    """What a call does, the file's name and more; None where it failed or does nothing in the folder."""
    result = re.search(r" = (-?\d+)", rest)
    is_done = not result or int(result[1]) >= 0
    if "sync" in call:
        return sync_of(rest, is_done, around)
    if not is_done:
        return None
    if call in ("write", "pwrite64"):
        return write_of(rest, result, around)
    if call == "ftruncate":
        name = name_of(rest, around)
        return name and ("cut", name, int(re.search(r", (\d+)", rest)[1]))
    return change_of_names(call, rest)


def change_of_names(call, rest):
    paths = [path_of(path) for path in TEXT.findall(rest)]
    names = [path[len("vault/"):] for path in paths if path.startswith("vault/")]
    if call.startswith("mkdir"):
        return paths[0].rstrip("/") == "vault" and ("folder made", "", None)
    if not names:
        return None
    if call == "openat":
        return "O_CREAT" in rest and ("made", names[0], None)
    if call.startswith("unlink"):
        return "removed", names[0], None
    return "renamed" if call.startswith("rename") else "linked", names[0], names[1]


def name_of(rest, around):
    """The name, in the folder, of the file that a descriptor is of; "" for another one."""
    found = DESCRIPTOR.match(rest)
    path = path_of(found[2]) if found else ""
    return path[len(around) + len("/vault/"):] if path.startswith(f"{around}/vault/") else ""


def sync_of(rest, is_done, around):
    found = DESCRIPTOR.match(rest)
    path = path_of(found[2]) if found else ""
    folders = {around: "around synced", f"{around}/vault": "folder synced"}
    if path in folders:
        return is_done and (folders[path], "", None)
    name = name_of(rest, around)
    return name and ("synced" if is_done else "not synced", name, None)


def write_of(rest, result, around):
    found, name = DESCRIPTOR.match(rest), name_of(rest, around)
    data = bytes_of(TEXT.search(rest)[1])
    data = data[:int(result[1])] if result else data
    if found and found[1] == "1":
        return "told", "", data
    at = re.search(r'", \d+, (\d+)', rest)
    return name and ("write", name, (int(at[1]) if at else None, data))


def is_change(event):
    """Whether it writes or cuts a file of a database: a file of another name is a draft."""
    return event.kind in ("write", "cut") and event.name in FILES


def text_by(events, instant):
    """What was printed by an instant."""
    return b"".join(event.more for event in events if event.kind == "told" and event.end and event.end <= instant)


def ends_between(events, begins, ends):
    """The ends of calls from the end of each call of one kind on, up to the end of the next of another kind."""
    found, is_open = [], False
    for event in sorted((event for event in events if event.end), key=lambda event: event.end):
        is_open = begins(event) or is_open and not ends(event)
        if is_open:
            found.append(event.end)
    return found
