#!/usr/bin/python3
"""Fingerprints a tree of files on a Dask cluster, whose workers all see it under the same path:

    fleet.py [options] SCHEDULER TREE MANIFEST

MANIFEST gets a line for each regular file below TREE, as our `xxhsum -H2` prints it, in the order of their names'
bytes: `cd TREE && xxhsum -c MANIFEST` checks them. MANIFEST.files has the same lines with the length, the time of
change and the inode of each file. With --since OLDER files whose state is in OLDER.files aren't read again, and keep
their lines.

Lines are written as they come, to MANIFEST.parts. A run that was killed leaves that folder, and the next one continues
from it: files that haven't changed since they were hashed aren't read again.

A write through a shared mapping (mmap) may leave the time of change unchanged. The digest is then of old bytes, also in
later runs with --since. With --anew every file is read, whatever OLDER.files and MANIFEST.parts contain.

With --indexes FOLDER each file of at least --large bytes also gets a file FOLDER/NAME.blocks, with the lines of `xxh
blocks SIZE`, and a file FOLDER/NAME.state with its origin: SIZE, and the file's length, time of change and inode. An
index of another state, of blocks of another size or of another number of lines is rebuilt.

A file that can't be hashed has no line; standard error has its name and the reason, and so for an index that can't
be written. The status is 0 if each file has its line and its index, 1 if one has none or there is no manifest, and 2
for wrong arguments."""
import argparse
import contextlib
import logging
import os
import sys
import time

from files import Known, walk
from parts import Parts, write

PIECE = 1 << 20
# Length of a line of an index: an offset, a space, a digest and a newline.
INDEX_LINE = 16 + 1 + 32 + 1
# The files of one task: enough that its way to a worker and back costs little.
FILES, BYTES = 200, 32 << 20
# Number of concurrent tasks: a few for each thread of a worker, and some before there is one.
FOR_A_THREAD, AT_LEAST = 4, 16


class WrongLibrary(Exception):
    """A worker's python3-xxhash uses another library."""


# ---- The worker's code. It is pickled by value, and uses no other file of this folder. ----


def hashing(library):
    """The module xxhash, which must use the libxxhash of this folder."""
    import xxhash

    with open('/proc/self/maps') as maps:
        loaded = {line.split(maxsplit=5)[5].strip() for line in maps if '/libxxhash.so' in line}
    wrong = sorted(path for path in loaded if not path.startswith(os.path.join(library, '')))
    if wrong or not loaded:
        raise WrongLibrary(
            f'{os.uname().nodename} hashes by {wrong[0] if wrong else "code of its own"}: start its '
            f'worker with LD_LIBRARY_PATH={library}'
        )
    return xxhash


def fingerprint(xxhash, path, block):
    """The digest of a file, the lines of its blocks if there is a block size, and its length."""
    whole, lines, offset = xxhash.xxh3_128(), [], 0
    with open(path, 'rb') as file:
        while piece := file.read(block or PIECE):
            whole.update(piece)
            if block:
                lines.append(f'{offset:016x} {xxhash.xxh3_128_hexdigest(piece)}\n')
            offset += len(piece)
    return whole.hexdigest(), ''.join(lines), offset


def fingerprints(library, tree, names, block):
    """For each name its digest, lines and length, or the reason for none."""
    xxhash, found = hashing(library), []
    for name in names:
        try:
            found.append((fingerprint(xxhash, os.path.join(os.fsencode(tree), name), block), None))
        except OSError as fault:
            found.append((None, fault.strerror))
    return found


# ---- The driver's code ----


class Task:
    """Files that one call hashes, up to a number of files and bytes. A file with an index is a task of its own, with
    a block size."""

    def __init__(self, number, block=0):
        self.number, self.block, self.entries, self.bytes = number, block, [], 0

    def add(self, entry):
        self.entries.append(entry)
        self.bytes += entry.length

    def is_full(self):
        return self.block or len(self.entries) == FILES or self.bytes >= BYTES


class Run:
    """One run: its progress, and what failed."""

    def __init__(self, args, parts):
        self.args, self.parts = args, parts
        self.hashed = self.reused = self.bytes = self.indexes = self.failed = 0
        self.began = self.shown = time.monotonic()

    def fail(self, name, why):
        self.failed += 1
        self.clear()
        # A terminal would run the control sequences in a name.
        shown = (it if it.isprintable() else ascii(it)[1:-1] for it in name.decode(errors='backslashreplace'))
        print(f'fleet: {"".join(shown)}: {why}', file=sys.stderr)

    def tasks(self):
        """The tasks, in the order of the files' names, while the tree is walked."""
        task = Task(0)
        for entry in self.changed():
            block = self.block_of(entry)
            if task.entries and (block or task.is_full()):
                yield task
                task = Task(task.number + 1)
            task.block = block
            task.add(entry)
            if block:
                yield task
                task = Task(task.number + 1)
        if task.entries:
            yield task

    def changed(self):
        """The files that must be read. Those that haven't changed since an earlier run are kept."""
        known = Known(self.parts.before())
        for entry in walk(self.args.tree, self.fail):
            older = known.of(entry.name)
            if older and entry.is_as(older) and self.has_index(entry):
                self.parts.keep(older)
                self.reused += 1
            else:
                yield entry

    def block_of(self, entry):
        """The block size of a file that gets an index, or 0."""
        return self.args.block if self.args.indexes and entry.length >= self.args.large else 0

    def index_of(self, entry, end='.blocks'):
        return os.path.join(self.args.indexes, os.fsdecode(entry.name) + end)

    def state_of_index(self, entry):
        """The content of the state file of an index: the block size, and the file's state."""
        return b'%d %d %d %d\n' % (self.args.block, entry.length, entry.changed, entry.inode)

    def has_index(self, entry):
        """True if the file has the correct index: of its bytes and of blocks of this size, or none."""
        if not self.args.indexes:
            return True
        if not self.block_of(entry):
            return not os.path.isfile(self.index_of(entry))
        length = INDEX_LINE * -(-entry.length // self.args.block)
        try:
            with open(self.index_of(entry, '.state'), 'rb') as file:
                return file.read() == self.state_of_index(entry) and os.path.getsize(self.index_of(entry)) == length
        except OSError:
            return False

    def remove_index(self, entry):
        """The state is removed first, so that none remains with an index of another one."""
        for end in ('.state', '.blocks'):
            with contextlib.suppress(FileNotFoundError, NotADirectoryError):
                os.remove(self.index_of(entry, end))

    def renew_index(self, entry, lines):
        """Writes the index of a file that was hashed, or removes that of one without."""
        try:
            self.remove_index(entry)
            if lines is not None:
                write(self.index_of(entry), [lines.encode()], is_lasting=True)
                write(self.index_of(entry, '.state'), [self.state_of_index(entry)], is_lasting=True)
                self.indexes += 1
        except OSError as fault:
            if lines is not None:
                self.fail(entry.name, f'its index: {fault.strerror}')

    def take(self, task, answer):
        """Takes the result of a task: the worker's, or the error that ended it."""
        if not isinstance(answer, list):
            if isinstance(answer[1], WrongLibrary):
                sys.exit(f'fleet: {answer[1]}')
            answer = [(None, f'its task ended by {type(answer[1]).__name__}')] * len(task.entries)
        hashed = []
        for entry, (found, why) in zip(task.entries, answer):
            if found:
                hashed.append(self.taken(entry, task.block, *found))
            else:
                self.fail(entry.name, why)
        self.parts.add(task.number, hashed)

    def taken(self, entry, block, digest, lines, length):
        """The entry with its digest. Its index is written before its line."""
        if self.args.indexes:
            self.renew_index(entry, lines if block else None)
        self.hashed, self.bytes = self.hashed + 1, self.bytes + length
        return entry._replace(digest=digest)

    def hash_all(self, client):
        """Submits tasks to Dask, a limited number at a time, and takes their results. Dask gives those of a lost
        worker to another one."""
        from distributed import as_completed

        coming, waiting, seen = self.tasks(), {}, time.monotonic()
        ended = as_completed([], with_results=True, raise_errors=False)
        while self.hand_out(client, coming, waiting, ended) or waiting:
            for future, answer in ended.next_batch(block=False):
                if client.status != 'running' or future.cancelled():
                    sys.exit(f'fleet: the scheduler {self.args.scheduler} is gone')
                if isinstance(answer, list) or future.status == 'error':
                    self.take(waiting.pop(future), answer)
                else:  # The worker with the result is gone: Dask runs it on another one.
                    ended.add(future)
            if client.scheduler_info()['workers']:
                seen = time.monotonic()
            elif time.monotonic() - seen > self.args.patience:
                sys.exit(f'fleet: no worker at {self.args.scheduler} for {self.args.patience} seconds')
            self.show()
            time.sleep(0.01)
        self.clear()

    def hand_out(self, client, coming, waiting, ended):
        """Submits tasks until enough are running. Returns whether there was one."""
        workers = client.scheduler_info()['workers'].values()
        most, before = max(AT_LEAST, FOR_A_THREAD * sum(it['nthreads'] for it in workers)), len(waiting)
        while len(waiting) < most and (task := next(coming, None)):
            args = self.args.library, self.args.tree, [it.name for it in task.entries], task.block
            future = client.submit(fingerprints, *args, pure=False)
            waiting[future] = task
            ended.add(future)
        return len(waiting) > before

    def rates(self):
        took = max(time.monotonic() - self.began, 0.001)
        return f'{self.hashed / took:.0f} files and {self.bytes / took / 1e6:.0f} MB a second'

    def show(self):
        """Shows the progress, on a terminal, twice a second."""
        if sys.stderr.isatty() and time.monotonic() - self.shown > 0.5:
            self.shown = time.monotonic()
            print(
                f'\r{self.hashed} files hashed, {self.reused} kept; {self.rates()} \x1b[K',
                end='',
                file=sys.stderr,
                flush=True,
            )

    def clear(self):
        if sys.stderr.isatty():
            print('\r\x1b[K', end='', file=sys.stderr)

    def summary(self):
        return (
            f'{self.hashed + self.reused} files, {self.reused} of them kept, {self.indexes} indexes, {self.bytes} '
            f'bytes in '
            f'{time.monotonic() - self.began:.1f} s: {self.rates()}; {self.failed} failed'
        )


def read_args():
    args = argparse.ArgumentParser(
        prog='fleet.py', description=__doc__, formatter_class=argparse.RawDescriptionHelpFormatter
    )
    args.add_argument('scheduler', help='where it listens, as tcp://host:8786')
    args.add_argument('tree', help='the folder whose files are hashed')
    args.add_argument('manifest', help='the list that is written')
    args.add_argument(
        '--since', metavar='OLDER', help='the manifest of an earlier run over the tree, beside its OLDER.files'
    )
    args.add_argument('--anew', action='store_true', help='reads every file, also those that an earlier run has read')
    args.add_argument('--indexes', metavar='FOLDER', help='also write the digests of blocks of large files here')
    args.add_argument('--large', type=int, default=64 << 20, help='the bytes from which a file has an index')
    args.add_argument('--block', type=int, default=1 << 20, help='the bytes of a block')
    args.add_argument('--library', default='/usr/lib/twox-hash/lib', help="the folder of the workers' libxxhash.so.0")
    args.add_argument('--patience', type=int, default=60, help='the seconds that it waits while there is no worker')
    chosen = args.parse_args()
    chosen.tree, chosen.manifest = os.path.abspath(chosen.tree), os.path.abspath(chosen.manifest)
    for name in (chosen.manifest, chosen.indexes and os.path.abspath(chosen.indexes)):
        if name and os.path.commonpath([chosen.tree, name]) == chosen.tree:
            args.error(f'{name} lies in the tree')
    if not os.path.isdir(chosen.tree):
        args.error(f'{chosen.tree} is no folder')
    if os.path.isdir(chosen.manifest):
        args.error(f'{chosen.manifest} is a folder')
    if chosen.since and not os.path.isfile(chosen.since + '.files'):
        args.error(f'there is no {chosen.since}.files')
    if chosen.block < 1:
        args.error('a block has at least one byte')
    return chosen


def main():
    args = read_args()
    from distributed import Client

    # Dask's messages about lost workers are no errors of this run.
    logging.disable(logging.CRITICAL)
    try:
        run = Run(args, Parts(args.manifest, args.tree, args.since, args.anew))
        with Client(args.scheduler, timeout=10) as client:
            run.hash_all(client)
        run.parts.join()
    except BlockingIOError:
        sys.exit(f'fleet: another run is at work in {args.manifest}.parts')
    except (OSError, ValueError) as fault:
        sys.exit(f'fleet: {fault}')
    print(run.summary())
    sys.exit(1 if run.failed else 0)


if __name__ == '__main__':
    main()
