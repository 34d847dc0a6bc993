"""What the tools that copy or exchange a whole database have in common: its folder, its lock, the program's calls."""
from __future__ import annotations

import fcntl
import os
import stat
import subprocess

from rows import Refused

TOP = os.path.dirname(os.path.dirname(os.path.abspath(__file__)))
USUAL_PROGRAM = f"{TOP}/foedus"


def locked(folder, kind=fcntl.LOCK_SH):
    """The savepoint's file, open and locked as the program locks it: by several that read, or by one that writes."""
    path = os.path.join(folder, "save")
    if not stat.S_ISDIR(mode_of(folder)):
        raise Refused(f"{folder}: no folder, but a link or something else")
    if not stat.S_ISREG(mode_of(path)):
        raise Refused(f"{path}: no regular file")
    try:
        save = open(path, "rb")
        fcntl.flock(save, kind | fcntl.LOCK_NB)
    except BlockingIOError:
        raise Refused(f"{folder}: busy: another process has the database") from None
    except OSError as error:
        raise Refused(f"{path}: {error.strerror}") from None
    if os.fstat(save.fileno()).st_ino != os.lstat(path).st_ino:
        raise Refused(f"{folder}: it changed meanwhile")
    return save


def mode_of(path):
    try:
        return os.lstat(path).st_mode
    except OSError as error:
        raise Refused(f"{path}: {error.strerror}") from None


def files_of(folder):
    """The names of a database's files, without drafts of a savepoint's."""
    names = sorted(os.listdir(folder))
    return [name for name in names if name in ("save", "snaps") or name.startswith("bank")]


def call(program, folder, *words):
    """What the program prints, called in a folder."""
    environment = {name: value for name, value in os.environ.items() if name != "FOEDUS_FOLDER"}
    try:
        done = subprocess.run([program, *words], cwd=folder, env=environment, stdin=subprocess.DEVNULL,
                              stdout=subprocess.PIPE, stderr=subprocess.PIPE)
    except OSError as error:
        raise Refused(f"{program}: {error.strerror}") from None
    if done.returncode:
        told = done.stdout.decode().splitlines()[-1:] + done.stderr.decode("utf-8", "replace").splitlines()[:3]
        raise Refused(f"{' '.join(words)} in {folder}: status {done.returncode}: {' / '.join(told)}")
    return done.stdout


def sync(path):
    """Brings a file, or the names of a folder, to the device."""
    opened = os.open(path, os.O_RDONLY)
    try:
        os.fsync(opened)
    finally:
        os.close(opened)
