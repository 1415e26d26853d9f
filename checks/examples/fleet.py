"""Checks examples/fleet on a Dask cluster of this machine, on 100,000 small files and ten large ones:

    checks/fleet [XXHSUM]

- with 1, 2 and 4 workers: the lines of one process of our xxhsum, and the blocks of python3-xxhash on Debian's library;
  names of every byte;
- our xxhsum accepts the manifest, and detects a changed byte;
- with reads of at most 1000 bytes;
- with a worker that is killed in the middle, and a driver that is killed twice and continues;
- --since an older manifest, after files were changed, added, renamed and removed, and with indexes of other bytes, of
  other blocks, that are empty or truncated; a name that is too long for an index; an index is on disk before it has its
  name;
- --anew, over a file that was changed through a shared mapping and kept its time;
- with a file that vanishes, one that can't be read, one that grows while it is read, and a directory that can't be
  read;
- with no worker left, no scheduler, a worker on Debian's library, a second concurrent run, a folder of other files
  under the name of the run's, and a manifest that is a folder, each of which must be reported;
- the driver's memory over 20,000 and over 200,000 files.

Scheduler and workers are processes on loopback, of the user nobody if root runs this, with all their files in a
temporary folder. It installs the library there, as `make -C c install` does, and installs missing Debian packages.
XXHSUM is our program; without it `rt` builds it. It needs 3 GiB of space in TMPDIR. The last line is "N passed, M
failed", and the status is 1 if one failed. CI does not run this."""
import contextlib
import json
import logging
import mmap
import os
import random
import re
import shutil
import signal
import socket
import subprocess
import sys
import tempfile
import threading
import time
from typing import Any

from checks.lib import command
from checks.lib.report import Fault, Report, check
from checks.lib.tools import (
    TOP,
    flip_bit,
    free_port,
    install_packages,
    must,
    proved_program,
    short_reads,
    text_of,
    write,
)

# Neither files nor bytes fill the last task, and some tasks are full of bytes.
FILES, MEDIUM, LARGE, BLOCK = 100050, 12 << 20, 64 << 20, 1000003
# A name for each byte that a name may have, except those that are no text by themselves.
BYTES = [byte for byte in range(1, 128) if byte != ord('/')]
NOBODY = 65534
# Without Dask's dashboard; what remains of it listens on loopback.
QUIET = ('--no-dashboard', '--dashboard-address', '127.0.0.1:0')
PACKAGES = {
    'dask-scheduler': 'python3-distributed',
    'xxhsum': 'xxhash',
    '/usr/lib/python3/dist-packages/xxhash/__init__.py': 'python3-xxhash',
}


def until(holds, fault):
    """Waits a minute at most."""
    for _ in range(600):
        if holds():
            return
        time.sleep(0.1)
    raise Fault(fault)


# ---- Input ----


def write_tree(tree):
    """Files of 0 to 4,000 bytes in folders of 100, names of every byte, four files of 12 MiB, and ten large ones."""
    chance = random.Random(7)
    for number in range(FILES):
        folder = os.path.join(tree, f'folder {number // 100}')
        os.makedirs(folder, exist_ok=True)
        special = {0: 'stdin', 1: '(a) = b', 2: '  two spaces', 3: 'größe €'}
        write(
            os.path.join(folder, special.get(number % 100, f'file-{number}')), chance.randbytes(chance.randrange(4001))
        )
    os.mkdir(os.path.join(tree, 'names'))
    for byte in BYTES:
        write(os.path.join(tree, 'names', f'{chr(byte)}\\'), bytes([byte]))
    for name, length, count in (('large', LARGE, 10), ('medium', MEDIUM, 4)):
        for number in range(count):
            write(os.path.join(tree, f'{name}-{number}'), chance.randbytes(length + number))
    # A file that changed a second ago may change again and keep its time, so no run relies on it.
    time.sleep(1.1)


def lines_of_xxhsum(xxhsum, tree):
    """The manifest by one process of xxhsum, and its time."""
    began = time.monotonic()
    script = "find . -type f -print0 | LC_ALL=C sort -z | xargs -0 \"$0\" -H2"
    done = subprocess.run(['sh', '-c', script, xxhsum], cwd=tree, capture_output=True)
    return done.stdout.splitlines(keepends=True), time.monotonic() - began


def blocks_by_python(tree, name, block=BLOCK):
    """The lines of a file's blocks by python3-xxhash, which runs on Debian's library here."""
    import xxhash

    lines = []
    with open(os.path.join(tree, name), 'rb') as file:
        while piece := file.read(block):
            lines.append(f'{len(lines) * block:016x} {xxhash.xxh3_128_hexdigest(piece)}\n')
    return ''.join(lines)


# ---- The cluster ----


class Cluster:
    """A scheduler and workers, in a folder that they may write to."""

    def __init__(self, workdir, library):
        self.workdir, self.library = workdir, library
        self.run_as: dict[str, Any] = {}
        if os.geteuid() == 0:
            self.run_as = {'user': NOBODY, 'group': NOBODY, 'extra_groups': []}
        port = str(free_port())
        self.address, self.processes, self.workers, self.preloaded = 'tcp://127.0.0.1:' + port, [], [], None
        self.start('dask-scheduler', '--host', '127.0.0.1', '--port', port, *QUIET)
        until(lambda: not socket.socket().connect_ex(('127.0.0.1', int(port))), 'the scheduler does not listen')

    def environment(self, library):
        found = {name: value for name, value in os.environ.items() if not name.startswith('LD_')}
        loader = {'LD_LIBRARY_PATH': library, 'LD_PRELOAD': self.preloaded}
        return {**found, 'HOME': self.workdir, **{name: value for name, value in loader.items() if value}}

    def start(self, *args, library=None):
        log = open(os.path.join(self.workdir, f'log-{len(self.processes)}'), 'wb')
        process = subprocess.Popen(
            args,
            cwd=self.workdir,
            env=self.environment(library),
            stdin=subprocess.DEVNULL,
            stdout=log,
            stderr=log,
            **self.run_as,
        )
        self.processes.append(process)
        return process

    def add_workers(self, count, library=None):
        for _ in range(count):
            self.workers.append(
                self.start(
                    'dask-worker',
                    self.address,
                    *'--nthreads 1 --no-nanny --host 127.0.0.1 --local-directory'.split(),
                    self.workdir,
                    *QUIET,
                    library=library or self.library,
                )
            )

    def remove_workers(self):
        for worker in self.workers:
            worker.kill()
            worker.wait()
        self.workers = []
        until(lambda: self.asks(lambda dask_scheduler: len(dask_scheduler.workers)) == 0, 'a worker is left')

    def asks(self, question, **args):
        """The scheduler's reply."""
        from distributed import Client

        with Client(self.address, timeout=10) as client:
            return client.run_on_scheduler(question, **args)

    def kill_in_the_middle(self):
        """Kills a worker while it has tasks, and returns their number."""

        # A function of the module would be sent by its name, which the scheduler can't import.
        async def stop_in_the_middle(dask_scheduler, address, pid):
            """Stops a worker when it has tasks and at most two thirds of all are left. Returns how many it has."""
            import asyncio

            most, end = 0, time.monotonic() + 60
            while time.monotonic() < end:
                tasks = dask_scheduler.tasks.values()
                left = sum(task.state in ('processing', 'queued', 'no-worker') for task in tasks)
                most, held = max(most, left), len(dask_scheduler.workers[address].processing)
                if 3 * left <= 2 * most and held:
                    os.kill(pid, signal.SIGSTOP)
                    return held
                await asyncio.sleep(0.001)
            return 0

        worker = self.workers[0]
        found = self.asks(lambda dask_scheduler: {it.pid: it.address for it in dask_scheduler.workers.values()})
        held = self.asks(stop_in_the_middle, address=found[worker.pid], pid=worker.pid)
        worker.kill()
        check(held, 'no worker was killed in the middle')
        return held

    def has_workers(self, count):
        until(lambda: self.asks(lambda dask_scheduler: len(dask_scheduler.workers)) == count, 'the workers are missing')

    def has_tasks(self):
        until(lambda: self.asks(lambda dask_scheduler: len(dask_scheduler.tasks)), 'it hands out no tasks')

    def end(self):
        for process in self.processes:
            process.kill()
            process.wait()


# ---- Runs of the example ----


class Fleet:
    """A tree with its expected results, and the example on a cluster."""

    def __init__(self, workdir, library, xxhsum):
        self.tree, self.folder, self.xxhsum = os.path.join(workdir, 'tree'), os.path.join(workdir, 'out'), xxhsum
        write_tree(self.tree)
        self.lines, self.alone = lines_of_xxhsum(xxhsum, self.tree)
        check(len(self.lines) == FILES + len(BYTES) + 14, f'xxhsum printed {len(self.lines)} lines')
        self.blocks = {f'large-{number}.blocks': blocks_by_python(self.tree, f'large-{number}') for number in range(10)}
        os.chmod(workdir, 0o755)
        for name in ('out', 'cluster'):
            os.mkdir(os.path.join(workdir, name))
            os.chmod(os.path.join(workdir, name), 0o777)
        self.program = os.path.join(
            shutil.copytree(os.path.join(TOP, 'examples', 'fleet'), os.path.join(workdir, 'fleet')), 'fleet.py'
        )
        self.manifest, self.indexes = os.path.join(self.folder, 'manifest'), os.path.join(self.folder, 'indexes')
        self.cluster = Cluster(os.path.join(workdir, 'cluster'), library)

    def forget(self):
        """Nothing is there from an earlier run."""
        for folder in (self.indexes, self.manifest + '.parts'):
            shutil.rmtree(folder, ignore_errors=True)
        for file in (self.manifest, self.manifest + '.files'):
            if os.path.exists(file):
                os.remove(file)

    def start(self, *more, address=None, goes_on=False, tree=None):
        """A run, from the beginning unless it continues an earlier one."""
        if not goes_on:
            self.forget()
        args = [
            self.program,
            '--indexes',
            self.indexes,
            '--large',
            str(LARGE),
            '--block',
            str(BLOCK),
            '--library',
            self.cluster.library,
            *more,
            address or self.cluster.address,
            tree or self.tree,
            self.manifest,
        ]
        return subprocess.Popen(
            args,
            env=self.cluster.environment(None),
            stdout=subprocess.PIPE,
            stderr=subprocess.PIPE,
            text=True,
            cwd=self.folder,
            **self.cluster.run_as,
        )

    def end(self, run, status=0):
        """The output of a finished run, and the lines with errors."""
        try:
            out, err = run.communicate(timeout=300)
        finally:
            run.kill()
        check(run.returncode == status, f'status {run.returncode}: {err.strip()[-300:]}')
        return out, err.splitlines()

    def printed(self):
        """The lines of the manifest."""
        with open(self.manifest, 'rb') as file:
            return file.readlines()

    def line_of(self, name):
        return next(line for line in self.printed() if line.endswith(name))

    def has_all(self, without=()):
        """The manifest and the indexes are those of one run, except the lines of these names."""
        gone = {b'  ./' + os.fsencode(name) + b'\n' for name in without}
        check(self.printed() == [line for line in self.lines if line[32:] not in gone], 'the manifest differs')
        check(not os.path.exists(self.manifest + '.parts'), 'the folder of parts is left')
        self.has_indexes(self.blocks)

    def has_indexes(self, blocks):
        """These are the indexes, by their names, and no others."""
        found = sorted(name for name in os.listdir(self.indexes) if name.endswith('.blocks'))
        check(found == sorted(blocks), f'there are other indexes: {set(found) ^ set(blocks)}')
        for name, lines in blocks.items():
            check(text_of(os.path.join(self.indexes, name)) == lines, f'{name} differs')

    def with_workers(self, count):
        self.cluster.remove_workers()
        self.cluster.add_workers(count)
        self.cluster.has_workers(count)


def agrees(fleet, count):
    """The fastest of three runs, whose lines are all equal."""
    fleet.with_workers(count)
    printed = []
    for _ in range(3):
        out, err = fleet.end(fleet.start())
        check(not err, err[:1])
        fleet.has_all()
        printed.append(out.strip())
    return min(printed, key=lambda line: float(re.search(r'in ([0-9.]+) s', line)[1]))


def xxhsum_accepts(fleet):
    """xxhsum -c accepts the list. With one byte changed, it reports that file."""
    args = [fleet.xxhsum, '-c', '--quiet', fleet.manifest]
    done = subprocess.run(args, cwd=fleet.tree, stdout=subprocess.PIPE)
    check(done.returncode == 0, done.stdout.decode(errors='replace')[-300:])
    path = os.path.join(fleet.tree, 'large-1')
    flip_bit(path)
    done = subprocess.run(args, cwd=fleet.tree, stdout=subprocess.PIPE)
    flip_bit(path)
    time.sleep(1.1)
    check(done.returncode == 1 and b'./large-1: FAILED' in done.stdout, 'a changed byte is not noticed')
    return f'{len(fleet.lines)} lines; a changed byte is noticed'


def names_that_are_no_text(fleet):
    """Names that are not UTF-8, which Debian's xxhsum also prints."""
    paths = [os.path.join(fleet.tree.encode(), b'names', bytes([byte])) for byte in (0x80, 0xFF)]
    for path in paths:
        write(path, path)
    done = subprocess.run(
        ['xxhsum', '-q', '-H2', *(b'./names/' + path[-1:] for path in paths)],
        cwd=fleet.tree,
        stdout=subprocess.PIPE,
        stderr=subprocess.DEVNULL,
    )
    fleet.end(fleet.start())
    for path in paths:
        os.remove(path)
    found = fleet.printed()
    check(set(found) - set(fleet.lines) == set(done.stdout.splitlines(keepends=True)), 'their lines differ')
    check(found == sorted(found, key=name_of_line), 'the order is not that of the names')


def name_of_line(line):
    """The name in a line of a list, unescaped."""
    meant = {b'\\\\': b'\\', b'\\n': b'\n', b'\\r': b'\r'}
    name = line[34 + line.startswith(b'\\') : -1]
    return re.sub(rb'\\[\\nr]', lambda escape: meant[escape[0]], name) if line.startswith(b'\\') else name


def short_reads_agree(fleet):
    """Each read of a worker or of the driver returns at most 1000 bytes."""
    fleet.cluster.preloaded = short_reads(fleet.cluster.workdir)
    fleet.with_workers(2)
    _, err = fleet.end(fleet.start())
    fleet.cluster.preloaded = None
    check(not err, err[:1])
    fleet.has_all()


def worker_dies(fleet):
    """One of two workers is killed."""
    fleet.with_workers(2)
    run = fleet.start()
    held = fleet.cluster.kill_in_the_middle()
    _, err = fleet.end(run)
    check(not err, err[:1])
    fleet.has_all()
    return f'{held} of its tasks went to the other one'


def no_worker_is_left(fleet):
    fleet.with_workers(1)
    run = fleet.start('--patience', '3')
    fleet.cluster.kill_in_the_middle()
    _, err = fleet.end(run, 1)
    check(err == [f'fleet: no worker at {fleet.cluster.address} for 3 seconds'], err)
    check(not os.path.exists(fleet.manifest), 'there is a manifest')
    return err[0]


def files_fail(fleet):
    """Workers start when the first tasks exist. By then a file of theirs has vanished, and one can't be read. A
    directory could never be read."""
    vanishing, closed, folder = 'folder 0/file-7', 'folder 1/file-108', 'folder 9'
    fleet.cluster.remove_workers()
    os.chmod(os.path.join(fleet.tree, folder), 0)
    run = fleet.start()
    fleet.cluster.has_tasks()
    time.sleep(1)
    os.rename(os.path.join(fleet.tree, vanishing), os.path.join(fleet.folder, 'vanished'))
    os.chmod(os.path.join(fleet.tree, closed), 0)
    fleet.cluster.add_workers(2)
    out, err = fleet.end(run, 1)
    os.rename(os.path.join(fleet.folder, 'vanished'), os.path.join(fleet.tree, vanishing))
    os.chmod(os.path.join(fleet.tree, closed), 0o644)
    os.chmod(os.path.join(fleet.tree, folder), 0o755)
    faults = {vanishing: 'No such file or directory', closed: 'Permission denied', folder: 'Permission denied'}
    check(sorted(err) == sorted(f'fleet: {name}: {why}' for name, why in faults.items()), err)
    inside = [os.path.join(folder, name) for name in os.listdir(os.path.join(fleet.tree, folder))]
    fleet.has_all([vanishing, closed, *inside])
    check(out.endswith('3 failed\n') and not os.path.exists(fleet.manifest + '.parts'), out)
    return 'each is named, and all others have their lines'


def driver_dies(fleet):
    """The driver is killed twice in the middle. The third run continues, and no file is reported or read twice."""
    fleet.with_workers(2)
    fleet.forget()
    for parts in (60, 180):
        run = fleet.start(goes_on=True)
        until(lambda: count_parts(fleet) >= parts or run.poll() is not None, 'it writes no parts')
        check(run.poll() is None, 'it ended before it was killed')
        run.kill()
        run.communicate()
        check(not os.path.exists(fleet.manifest), 'there is a manifest')
    out, err = fleet.end(fleet.start(goes_on=True))
    check(not err, err[:1])
    fleet.has_all()
    reused = int(re.search(r'(\d+) of them kept', out)[1])
    check(reused > 20000, out)
    return f'{reused} of {len(fleet.lines)} lines were there'


def count_parts(fleet):
    """The number of parts of the run, and of earlier runs, by their records."""
    folder = fleet.manifest + '.parts'
    names = os.listdir(folder) if os.path.isdir(folder) else []
    before = os.path.join(folder, 'before')
    records = sum(1 for _ in open(before, 'rb')) if 'before' in names else 0
    return sum(name.isdecimal() for name in names) + records // 200


def since_an_older_one(fleet):
    """Changed files are read again, and no others."""
    fleet.end(fleet.start())
    older = os.path.join(fleet.folder, 'older')
    for end in ('', '.files'):
        os.rename(fleet.manifest + end, older + end)
    changed = os.path.join(fleet.tree, 'folder 5')
    data = open(f'{changed}/file-555', 'rb').read()
    write(f'{changed}/file-555', data[::-1])
    write(f'{changed}/new', b'new')
    os.rename(f'{changed}/file-556', f'{changed}/renamed')
    os.rename(f'{changed}/file-557', os.path.join(fleet.folder, 'removed'))
    time.sleep(1.1)
    out, err = fleet.end(fleet.start('--since', older, goes_on=True))
    lines, _ = lines_of_xxhsum(fleet.xxhsum, fleet.tree)
    found = fleet.printed()
    write(f'{changed}/file-555', data)
    os.remove(f'{changed}/new')
    os.rename(f'{changed}/renamed', f'{changed}/file-556')
    os.rename(os.path.join(fleet.folder, 'removed'), f'{changed}/file-557')
    time.sleep(1.1)
    check(not err and found == lines, 'the manifest differs')
    check(f', {len(lines) - 3} of them kept, 0 indexes' in out, out)
    return out.strip()


def indexes_are_of_their_files(fleet):
    """An index of other bytes, or of another size of blocks, is computed again, also if the file's line is kept. One
    of a file that has become small is removed."""
    fleet.end(fleet.start())
    changed, shorter, same = (os.path.join(fleet.tree, f'large-{number}') for number in (1, 2, 3))
    for path in (changed, shorter):
        shutil.copy(path, os.path.join(fleet.folder, os.path.basename(path)))
    with open(changed, 'r+b') as file:
        file.write(b'other bytes')
    os.truncate(shorter, 1000)
    time.sleep(1.1)
    fleet.end(fleet.start('--indexes', '', goes_on=True))
    seen = []
    for block in (BLOCK, BLOCK + 7):
        names = [f'large-{number}' for number in range(10) if number != 2]
        out, err = fleet.end(fleet.start('--since', fleet.manifest, '--block', str(block), goes_on=True))
        check(not err, err[:1])
        fleet.has_indexes({f'{name}.blocks': blocks_by_python(fleet.tree, name, block) for name in names})
        seen.append(int(re.search(r', (\d+) indexes', out)[1]))
    inode = os.stat(same).st_ino
    state = text_of(os.path.join(fleet.indexes, 'large-3.state'))
    expected = f'{BLOCK + 7} {LARGE + 3} {os.stat(same).st_ctime_ns} {inode}\n'
    check(state == expected, 'the state beside an index is another')
    for path in (changed, shorter):
        shutil.copy(os.path.join(fleet.folder, os.path.basename(path)), path)
    time.sleep(1.1)
    check(seen == [1, 9], f'{seen} indexes were built again')


def indexes_that_are_cut(fleet):
    """An index that is empty, or has a line less or more, is computed again. All others are kept."""
    fleet.end(fleet.start())
    for name, change in (
        ('large-4', lambda length: 0),
        ('large-5', lambda length: length - 50),
        ('large-6', lambda length: length + 50),
    ):
        path = os.path.join(fleet.indexes, name + '.blocks')
        os.truncate(path, change(os.path.getsize(path)))
    out, err = fleet.end(fleet.start('--since', fleet.manifest, goes_on=True))
    check(not err and ', 3 indexes' in out, f'{err[:1]}{out}')
    fleet.has_all()
    return out.strip()


# Prints what parts.py flushes, and what it renames, when it writes a file that has to last.
CALLS_OF_WRITE = '''
import json, os, sys
import parts
calls, fsync, replace = [], os.fsync, os.replace
os.fsync = lambda number: calls.append(os.readlink(f"/proc/self/fd/{number}")) or fsync(number)
os.replace = lambda *names: calls.append(names) or replace(*names)
parts.write(sys.argv[1], [b"line\\n"], is_lasting=True)
print(json.dumps(calls))
'''


def indexes_are_on_disk(fleet):
    """Files that a power loss must not truncate are flushed before they are renamed."""
    path = os.path.join(fleet.folder, 'lasting')
    calls = json.loads(must([sys.executable, '-B', '-c', CALLS_OF_WRITE, path], cwd=os.path.dirname(fleet.program)))
    check(calls == [path + '.part', [path + '.part', path]], calls)
    written = re.findall(r'write\(self.index_of\(.*is_lasting=True', text_of(fleet.program))
    check(len(written) == 2, 'an index is written in another way')


# Prints if parts.py has closed its lock when it removes the folder with it.
CLOSED_AT_THE_END = '''
import os, sys
import parts
run, rmdir = parts.Parts(sys.argv[1], "/tree", None), os.rmdir
os.rmdir = lambda path, **more: print(run.lock.closed) or rmdir(path, **more)
run.join()
'''


def folder_is_closed(fleet):
    """No file of the folder of parts is open when it is removed: on NFS the folder would then not be empty."""
    fleet.forget()
    folder = os.path.dirname(fleet.program)
    found = must([sys.executable, '-B', '-c', CLOSED_AT_THE_END, fleet.manifest], cwd=folder)
    is_left = os.path.exists(fleet.manifest + '.parts')
    fleet.forget()
    check(found == 'True\n' and not is_left, f'closed: {found}')


def through_a_mapping(fleet):
    """A mapped page stays writable: later writes to it don't change the file's time. --since keeps the old digest,
    as documented on the page, and --anew finds the bytes."""
    path, name = os.path.join(fleet.tree, 'large-7'), b'  ./large-7\n'
    with open(path, 'r+b') as file, mmap.mmap(file.fileno(), 0) as bytes_of_file:
        byte = bytes_of_file[5]
        bytes_of_file[5] = byte
        time.sleep(1.1)
        fleet.end(fleet.start())
        before = os.stat(path).st_ctime_ns
        bytes_of_file[5] = byte ^ 1
        is_moved = os.stat(path).st_ctime_ns != before
        fleet.end(fleet.start('--since', fleet.manifest, goes_on=True))
        original = fleet.line_of(name)
        fleet.end(fleet.start('--since', fleet.manifest, '--anew', goes_on=True))
        found = fleet.line_of(name)
        lines, _ = lines_of_xxhsum(fleet.xxhsum, fleet.tree)
        fleet.has_indexes({**fleet.blocks, 'large-7.blocks': blocks_by_python(fleet.tree, 'large-7')})
        bytes_of_file[5] = byte
    os.utime(path)
    time.sleep(1.1)
    check([found] == [line for line in lines if line.endswith(name)], '--anew does not read it')
    check(is_moved or original != found, '--since has read it, and its time was as it was')
    return 'its time moved here' if is_moved else 'its time was as it was'


def long_names(fleet):
    """A file whose index would have too long a name is reported, and it has its line as all others."""
    name = 'n' * 250
    path = os.path.join(fleet.tree, name)
    shutil.copy(os.path.join(fleet.tree, 'large-1'), path)
    os.chmod(path, 0o644)
    _, err = fleet.end(fleet.start(), 1)
    lines, _ = lines_of_xxhsum(fleet.xxhsum, fleet.tree)
    os.remove(path)
    check(err == [f'fleet: {name}: its index: File name too long'], err)
    check(fleet.printed() == lines, 'the manifest differs')
    fleet.has_indexes(fleet.blocks)


def a_file_grows(fleet):
    """A file that grows while it is read has one line, and is read again by the next run."""
    path, is_over = os.path.join(fleet.tree, 'growing'), threading.Event()
    write(path, b'')

    def grow():
        with open(path, 'ab', buffering=0) as file:
            while not is_over.is_set():
                file.write(bytes(1000))
                time.sleep(0.001)

    growing = threading.Thread(target=grow)
    growing.start()
    try:
        _, err = fleet.end(fleet.start())
    finally:
        is_over.set()
        growing.join()
    found = [line for line in fleet.printed() if line.endswith(b'  ./growing\n')]
    check(not err and len(found) == 1, f'{len(found)} lines: {err}')
    time.sleep(1.1)
    fleet.end(fleet.start('--since', fleet.manifest, goes_on=True))
    found = fleet.printed()
    lines, _ = lines_of_xxhsum(fleet.xxhsum, fleet.tree)
    os.remove(path)
    check(found == lines, 'the next manifest differs')


def a_second_run(fleet):
    fleet.cluster.remove_workers()
    first = fleet.start()
    fleet.cluster.has_tasks()
    _, err = fleet.end(fleet.start(goes_on=True), 1)
    check(err == [f'fleet: another run is at work in {fleet.manifest}.parts'], err)
    fleet.with_workers(2)
    fleet.end(first)
    fleet.has_all()


def a_folder_of_other_files(fleet):
    """A folder under the name of the parts that has other files is refused, and left unchanged."""
    fleet.forget()
    folder = fleet.manifest + '.parts'
    os.mkdir(folder)
    os.chmod(folder, 0o777)
    write(os.path.join(folder, 'notes'), b'of a user')
    _, err = fleet.end(fleet.start(goes_on=True), 1)
    found = os.listdir(folder)
    fleet.forget()
    check(found == ['notes'], f'the folder has {found}')
    check(err == [f"fleet: {folder} has 'notes', which no run wrote: rename the folder, or the manifest"], err)


def a_manifest_that_is_a_folder(fleet):
    """It is refused before a file is read."""
    fleet.forget()
    os.mkdir(fleet.manifest)
    out, err = fleet.end(fleet.start(goes_on=True), 2)
    os.rmdir(fleet.manifest)
    check(not out and err[-1] == f'fleet.py: error: {fleet.manifest} is a folder', err)
    check(not os.path.exists(fleet.manifest + '.parts'), 'a run has begun')


# Prints the message on a file of this name, in hexadecimal.
FAILS = 'import sys, fleet; fleet.Run(None, None).fail(bytes.fromhex(sys.argv[1]), "why")'


def names_in_messages(fleet):
    """A message is one line, in which a name has no control sequence."""
    name = 'größe \\\n\r\x1b[2J\u202e'.encode() + b'\xff'
    command = [sys.executable, '-B', '-X', 'utf8', '-c', FAILS, name.hex()]
    done = subprocess.run(command, cwd=os.path.dirname(fleet.program), capture_output=True)
    check(done.stderr.decode() == 'fleet: größe \\\\n\\r\\x1b[2J\\u202e\\xff: why\n', done.stderr)


def help_without_dask(fleet):
    check('--indexes' in must([sys.executable, '-B', '-S', fleet.program, '--help']), 'no help')


def memory(fleet):
    """The maximum memory of the driver, over 20,000 and 200,000 files."""
    fleet.with_workers(2)
    found = {}
    for count in (20000, 200000):
        tree = os.path.join(fleet.folder, f'tree-{count}')
        for number in range(count):
            if number % 1000 == 0:
                os.makedirs(f'{tree}/{number // 1000:04}')
            write(f'{tree}/{number // 1000:04}/a-file-with-a-name-of-some-length-{number:08}', b'%d' % number)
        os.chmod(fleet.folder, 0o777)
        found[count] = most_memory(fleet.start(tree=tree), fleet)
        shutil.rmtree(tree)
    check(found[200000] - found[20000] < 20, f'{found} MB')
    return ', '.join(f'{count} files: {most} MB' for count, most in found.items())


def most_memory(run, fleet):
    """In megabytes, as the system reports it of a run until it ends."""
    most = 0
    while run.poll() is None:
        with contextlib.suppress(OSError), open(f'/proc/{run.pid}/status') as file:
            most = max([most, *(int(line.split()[1]) for line in file if line.startswith('VmHWM'))])
        time.sleep(0.05)
    fleet.end(run)
    return most // 1000


def other_library_is_refused(fleet):
    fleet.cluster.remove_workers()
    fleet.cluster.add_workers(1, '/nowhere')
    _, err = fleet.end(fleet.start(), 1)
    check(len(err) == 1 and 'LD_LIBRARY_PATH=' + fleet.cluster.library in err[0], err)
    check(not os.path.exists(fleet.manifest), 'there is a manifest')
    return err[0]


def no_scheduler(fleet):
    with socket.socket() as unused:
        unused.bind(('127.0.0.1', 0))
        _, err = fleet.end(fleet.start(address=f'tcp://127.0.0.1:{unused.getsockname()[1]}'), 1)
    check(len(err) == 1 and 'Timed out trying to connect' in err[0], err)
    return err[0]


def check_all(report, workdir, program):
    library = os.path.join(workdir, 'prefix', 'lib')
    must(['make', '-s', '-C', os.path.join(TOP, 'c'), 'install', f'lib={workdir}/lib', f'PREFIX={workdir}/prefix'])
    xxhsum = os.path.abspath(program) if program else proved_program('xxhsum')
    fleet = Fleet(workdir, library, xxhsum)
    report.record('one process of xxhsum', None, f'{len(fleet.lines)} files in {fleet.alone:.1f} s')
    try:
        for count in (1, 2, 4):
            report.attempt(f'{count} workers', agrees, fleet, count)
        for name, test in (
            ('xxhsum -c', xxhsum_accepts),
            ('names that are no text', names_that_are_no_text),
            ('short reads', short_reads_agree),
            ('a worker is killed', worker_dies),
            ('the driver is killed twice', driver_dies),
            ('since an older manifest', since_an_older_one),
            ('indexes of changed files and other blocks', indexes_are_of_their_files),
            ('indexes that are cut', indexes_that_are_cut),
            ('indexes are on disk', indexes_are_on_disk),
            ('the folder of parts is closed', folder_is_closed),
            ('a file changed through a mapping', through_a_mapping),
            ('a name too long for an index', long_names),
            ('files that fail', files_fail),
            ('a file grows', a_file_grows),
            ('a second run', a_second_run),
            ('a folder of other files', a_folder_of_other_files),
            ('a manifest that is a folder', a_manifest_that_is_a_folder),
            ('names in messages', names_in_messages),
            ('the help without Dask', help_without_dask),
            ('no worker is left', no_worker_is_left),
            ("a worker on Debian's library", other_library_is_refused),
            ('no scheduler', no_scheduler),
            ("the driver's memory", memory),
        ):
            report.attempt(name, test, fleet)
    finally:
        fleet.cluster.end()


def main():
    parser = command.parser(__doc__)
    parser.add_argument('xxhsum', nargs='?', help='our program, which rt builds by default')
    program = parser.parse_args().xxhsum
    install_packages(PACKAGES)
    # Dask's messages about missing workers are no errors.
    logging.disable(logging.CRITICAL)
    report = Report()
    with tempfile.TemporaryDirectory() as workdir:
        check_all(report, workdir, program)
    return report.end()
