"""The files of a tree, and their known state: a file is an entry, and entries that were hashed are stored as records.

A record is a line of `xxhsum -H2` with three numbers before it, the state of the file: its length, its time of
change in nanoseconds and its inode. Files of records are in the order of the names' bytes, like the walk."""
import heapq
import itertools
import os
import re
import time
from typing import NamedTuple

ESCAPES = {b'\\': b'\\\\', b'\n': b'\\n', b'\r': b'\\r'}
MEANT = {escape: byte for byte, escape in ESCAPES.items()}
RECORD = re.compile(rb'(\d+) (\d+) (\d+) (\\?)([0-9a-f]{32})  \./(.*)\n', re.S)
# A file that changed so shortly before its state was read may change again and keep its time.
SETTLED_NANOSECONDS = 1_000_000_000


class Entry(NamedTuple):
    """A regular file: its name below the tree, its state, and its digest once there is one."""

    name: bytes
    length: int
    changed: int
    inode: int
    digest: str = ''

    def is_as(self, other):
        """True if both have the same state. A file that had changed just before has 0, which is no state."""
        return self[:4] == other[:4] and self.changed != 0

    def line(self):
        """The line of `xxhsum -H2`: with a backslash before it if a byte of the name is escaped."""
        name = re.sub(rb'[\\\n\r]', lambda byte: ESCAPES[byte[0]], self.name)
        return (b'\\' if name != self.name else b'') + self.digest.encode() + b'  ./' + name + b'\n'

    def record(self):
        return b'%d %d %d ' % self[1:4] + self.line()


def entry_of(record):
    """The entry of a record, or ValueError if it is none."""
    found = RECORD.fullmatch(record)
    if not found:
        raise ValueError(f'{record[:80]!r} is no record of a file')
    length, changed, inode, is_escaped, digest, name = found.groups()
    if is_escaped:
        name = re.sub(rb'\\[\\nr]', lambda escape: MEANT[escape[0]], name)
    return Entry(name, int(length), int(changed), int(inode), digest.decode())


def records_of(path):
    """The entries of a file of records, one after another; none if there is no such file."""
    if not os.path.exists(path):
        return
    with open(path, 'rb') as file:
        yield from map(entry_of, file)


def newest(*streams):
    """The entries of several streams in the order of their names. For one name the last stream's is used."""
    for _, same in itertools.groupby(heapq.merge(*streams, key=name_of), key=name_of):
        *_, last = same
        yield last


def name_of(entry):
    return entry.name


def walk(tree, fail):
    """The regular files below a tree, in the order of their names' bytes. Calls `fail` for a directory that can't be
    read. Keeps the names of the directories on the path to a file, and no others."""
    folders = [iter(listing(tree, b'', fail))]
    while folders:
        found = next(folders[-1], None)
        if found is None:
            folders.pop()
        elif found.is_dir(follow_symlinks=False):
            folders.append(iter(listing(tree, name_below(tree, found), fail)))
        elif found.is_file(follow_symlinks=False):
            yield state_of(name_below(tree, found), found)


def listing(tree, folder, fail):
    """The content of a directory. A directory's name is sorted as the names of its files, which continue with a
    slash."""
    try:
        with os.scandir(os.path.join(os.fsencode(tree), folder)) as found:
            return sorted(found, key=lambda it: it.name + b'/' * it.is_dir(follow_symlinks=False))
    except OSError as fault:
        fail(folder or b'.', fault.strerror)
        return ()


def name_below(tree, found):
    return found.path[len(os.path.join(os.fsencode(tree), b'')) :]


def state_of(name, found):
    """An entry with the file's state. A file that has vanished has none: its worker reports it."""
    try:
        state = found.stat(follow_symlinks=False)
    except OSError:
        return Entry(name, 0, 0, 0)
    is_settled = time.time_ns() - state.st_ctime_ns > SETTLED_NANOSECONDS
    return Entry(name, state.st_size, state.st_ctime_ns if is_settled else 0, state.st_ino)


class Known:
    """Entries in the order of their names, for a walk in that order."""

    def __init__(self, entries):
        self.entries = iter(entries)
        self.next = next(self.entries, None)

    def of(self, name):
        """The entry of a name, or None."""
        while self.next and self.next.name < name:
            self.next = next(self.entries, None)
        return self.next if self.next and self.next.name == name else None
