"""The writes of `xxhsum` into pipes, and onto a disk that is full: tests of checks/xxhsum.

A test is its name, and its error, or nothing. A pipe in packet mode keeps writes separate: each read of it returns
one write, of at most 4,096 bytes."""
import concurrent.futures
import os
import resource
import signal
import subprocess
import tempfile
from typing import Collection, Iterator, Optional

from checks.lib.tools import write

from . import messages
from .runs import DISK_SIZE, SETTINGS, into_full_pipe, no_small_disk, on_small_disk, without_waiting

SECONDS = 60
# Maximum length of a write of more than one line.
MOST = 4096
FILES = 400
PROCESSES = 8


def writes_of(programs, folder):
    """The writes of these runs into one pipe, in order, and the statuses. The runs overlap."""
    ours, theirs = os.pipe2(os.O_DIRECT)
    runs = [
        subprocess.Popen(args, stdin=subprocess.DEVNULL, stdout=theirs, stderr=theirs, cwd=folder, env=SETTINGS)
        for args in programs
    ]
    os.close(theirs)
    parts = []
    while part := os.read(ours, 2 * MOST):
        parts.append(part)
    os.close(ours)
    return parts, [run.wait(SECONDS) for run in runs]


def names_in(folder, count, lengths=(1, 40, 90)):
    """Creates this many files, whose names have these lengths in turn."""
    names = [f'{number:04}-' + 'n' * lengths[number % len(lengths)] for number in range(count)]
    for name in names:
        write(os.path.join(folder, name), name)
    return names


def fewest(lines):
    """The number of writes for these lines, if each has as many whole lines as 4,096 bytes hold."""
    count, free = 0, 0
    for line in lines:
        if free < len(line):
            count, free = count + 1, MOST
        free -= len(line)
    return count


def whole_lines(program, folder):
    """Each write has whole lines, at most 4,096 bytes of them, and as many as fit."""
    names = names_in(folder, FILES)
    parts, (status,) = writes_of([[program, *names]], folder)
    lines = b''.join(parts).splitlines(keepends=True)
    if status or len(lines) != len(names):
        return f'status {status}, {len(lines)} lines'
    if any(not part.endswith(b'\n') for part in parts):
        return 'a line stands in two writes'
    if len(parts) != fewest(lines):
        return f'{len(parts)} writes, where {fewest(lines)} do'
    return None


def nul_lines(program, folder):
    """The same for lines that end with NULs, whose names have newlines."""
    names = [f'{number:04}\n' + 'n' * 60 for number in range(FILES)]
    for name in names:
        write(os.path.join(folder, name), name)
    parts, (status,) = writes_of([[program, '-z', *names]], folder)
    wrong = [part[-20:] for part in parts if not part.endswith(b'\0')]
    return f'status {status}, writes that end with {wrong[:3]}' if status or wrong else None


def checked_lines(program, folder):
    """The same for a list that is checked, with its counts."""
    names = names_in(folder, FILES)
    done = subprocess.run([program, *names], capture_output=True, cwd=folder, env=SETTINGS, check=True)
    checked = done.stdout + b'junk\n' + done.stdout.replace(b'  ', b'  gone-', 20)[:2000] + b'\n'
    write(os.path.join(folder, 'list'), checked)
    parts, _status = writes_of([[program, '-c', 'list']], folder)
    return None if all(part.endswith(b'\n') for part in parts) and len(parts) < 20 else f'{len(parts)} writes'


def before_messages(program, folder):
    """Output comes before a message that is written after it."""
    names = names_in(folder, 3)
    parts, (status,) = writes_of([[program, names[0], 'gone', names[1], '.', names[2]]], folder)
    ends = [line.split()[-1] if line[:1] in b'0123456789abcdef' else line[:6] for line in b''.join(parts).splitlines()]
    expected = [names[0].encode(), b'Error:', names[1].encode(), b'xxhsum', names[2].encode()]
    return None if status == 1 and ends == expected else f'status {status}, {ends}'


def before_messages_of_lists(program, folder):
    """The same for messages about lines of a list, and about a list that can't be opened."""
    (name,) = names_in(folder, 1)
    line = subprocess.run([program, name], capture_output=True, cwd=folder, env=SETTINGS, check=True).stdout
    write(os.path.join(folder, 'list'), line + b'junk\n' + line + b'x' * 40000 + b'\n')
    parts, _status = writes_of([[program, '-cw', 'list', 'gone', 'list']], folder)
    lines = b''.join(parts).splitlines()
    labels = [
        line.endswith(b': OK') and 'OK' or (line.startswith((b'list:', b'Error:')) and 'message') or 'count'
        for line in lines
    ]
    one_list = ['OK', 'message', 'OK', 'message', 'count']
    return None if labels == [*one_list, 'message', *one_list] else f'{labels}'


def before_messages_of_empty_lists(program, folder):
    """The same for the message that a list has no well-formed line."""
    (name,) = names_in(folder, 1)
    line = subprocess.run([program, name], capture_output=True, cwd=folder, env=SETTINGS, check=True).stdout
    for listed, text in (('list', line), ('none', b'junk\n')):
        write(os.path.join(folder, listed), text)
    parts, _status = writes_of([[program, '-c', 'list', 'none', 'list']], folder)
    ok = name.encode() + b': OK'
    expected = [ok + b'\n', messages.no_proper_line('none'), ok + b'\n']
    found = b''.join(parts).splitlines(keepends=True)
    return None if found == expected else f'{found}'


def whole_messages(program, folder):
    """Each message is one write, also one with escapes."""
    gone = ['gone', 'line\nfeed', 'back\\slash', 'x' * 200, '.', *(f'{number:04}-gone' for number in range(100))]
    parts, (status,) = writes_of([[program, *gone]], folder)
    if status != 1 or len(parts) != len(gone):
        return f'status {status}, {len(parts)} writes of {len(gone)} messages'
    return (
        None
        if all(part.endswith(b'\n') and part.count(b'\n') == 1 for part in parts)
        else 'a message stands in two writes'
    )


def messages_into_one_pipe(program, folder):
    """Messages and lines of several runs into one pipe stay whole."""
    names = [word for name in names_in(folder, 200) for word in (name, f'{name}-gone', f'{name}\ngone')]
    done = subprocess.run(
        [program, *names], stdout=subprocess.PIPE, stderr=subprocess.STDOUT, cwd=folder, env=SETTINGS, check=False
    )
    lines = done.stdout.splitlines()
    parts, statuses = writes_of([[program, *names]] * PROCESSES, folder)
    found = b''.join(parts).splitlines()
    if set(statuses) != {1} or sorted(found) != sorted(lines * PROCESSES):
        return f'statuses {statuses}, {len(set(found) - set(lines))} lines that no run has'
    return None


def runs_into_one_pipe(program, folder):
    """Lines of several runs into one pipe stay whole, whatever the runs' order."""
    names = names_in(folder, FILES)
    done = subprocess.run([program, *names], capture_output=True, cwd=folder, env=SETTINGS, check=True)
    lines = done.stdout.splitlines()
    parts, statuses = writes_of([[program, *names]] * PROCESSES, folder)
    found = b''.join(parts).splitlines()
    if any(statuses) or sorted(found) != sorted(lines * PROCESSES):
        return f'statuses {statuses}, {len(set(found) - set(lines))} lines that no run has'
    return None


def long_line(program, folder):
    """A line longer than that is one write, except for the limit of a pipe's packets."""
    write(os.path.join(folder, 'list'), b'26c7827d889f6da3  ' + b'x' * 9000 + b'\n')
    parts, _status = writes_of([[program, '-c', 'list']], folder)
    return None if [len(part) for part in parts[:2]] == [MOST, MOST] else f'{[len(part) for part in parts]}'


def limited_file(program, folder):
    """The last write is short: a file may not grow past a limit. It has the beginning, and the loss is reported."""
    names, limit = names_in(folder, 100), 5000

    def limited():
        signal.signal(signal.SIGXFSZ, signal.SIG_IGN)
        resource.setrlimit(resource.RLIMIT_FSIZE, (limit, limit))

    whole = subprocess.run([program, *names], capture_output=True, cwd=folder, env=SETTINGS, check=True).stdout
    with tempfile.TemporaryFile() as out:
        done = subprocess.run(
            [program, *names],
            stdout=out,
            stderr=subprocess.PIPE,
            cwd=folder,
            env=SETTINGS,
            check=False,
            preexec_fn=limited,
            restore_signals=False,
        )
        out.seek(0)
        written = out.read()
    if not MOST < limit < len(whole) < 2 * MOST:
        return f'the last of two writes has to be short, and there are {len(whole)} bytes'
    if (done.returncode, done.stderr) != (1, messages.WRITE_FAILED) or written != whole[:limit]:
        return f'status {done.returncode}, {len(written)} bytes, {done.stderr!r}'
    return None


def lost(found, whole, is_right):
    """The error of a run that wrote only a part of its output, which is correct."""
    out, err, status = found
    if (status, err) != (1, messages.WRITE_FAILED) or not whole.startswith(out) or not is_right(out):
        return f'status {status}, {len(out)} of {len(whole)} bytes, {err}'
    return None


def output_of(program, args, folder):
    return subprocess.run([program, *args], capture_output=True, cwd=folder, env=SETTINGS, check=True).stdout


def full_disk(program, folder):
    """A disk of 64 KiB is filled to its last byte by a short write, and the loss is reported."""
    names = names_in(folder, 200) * 6
    whole = output_of(program, names, folder)
    return lost(on_small_disk(program, names, folder), whole, lambda out: len(out) == DISK_SIZE < len(whole) - MOST)


def full_pipe(program, folder):
    """A write that would block fails, and the loss is reported. The pipe has whole lines."""
    names = names_in(folder, 200) * 6
    whole = output_of(program, names, folder)
    return lost(
        into_full_pipe(program, names, folder), whole, lambda out: MOST < len(out) < len(whole) and out.endswith(b'\n')
    )


def input_that_waits(program, folder):
    """A read that would block fails, and is not the end of the input. With all bytes there, and no writer, none
    does."""
    ours, theirs = os.pipe()
    os.write(theirs, b'hello')
    runs = []
    for _ in range(2):
        runs.append(
            subprocess.run(
                [program], stdin=without_waiting(ours), capture_output=True, cwd=folder, env=SETTINGS, check=False
            )
        )
        if len(runs) == 1:
            os.write(theirs, b'hello')
            os.close(theirs)
    os.close(ours)
    found = [(run.stdout, run.stderr, run.returncode) for run in runs]
    expected = [
        (b'', messages.unread('stdin', 'Resource temporarily unavailable', end='.'), 1),
        (b'26c7827d889f6da3  stdin\n', b'', 0),
    ]
    return None if found == expected else f'{found}'


NEEDS_DISK = 'a disk of 64 KiB'
CASES = {
    'a file that may not grow': limited_file,
    NEEDS_DISK: full_disk,
    'a pipe that is full': full_pipe,
    'input that waits': input_that_waits,
    'whole lines': whole_lines,
    'whole lines that NULs end': nul_lines,
    'whole lines of a check': checked_lines,
    'output before messages': before_messages,
    'output before messages about lists': before_messages_of_lists,
    'output before messages about lists with no line': before_messages_of_empty_lists,
    'whole messages': whole_messages,
    'messages of several runs into one pipe': messages_into_one_pipe,
    'several runs into one pipe': runs_into_one_pipe,
    'a long line': long_line,
}


def fault_of(program, case):
    with tempfile.TemporaryDirectory() as folder:
        return case(program, folder)


def cases_on_pipes(program: str, names: Collection[str] = tuple(CASES)) -> Iterator[tuple[str, Optional[str]]]:
    """The tests, each with its error. That of a disk is left out, with the reason, if none can be mounted."""
    with tempfile.TemporaryDirectory() as folder:
        why = no_small_disk(folder)
    if why:
        print(f'skipped  {NEEDS_DISK}: {why}')
        names = [name for name in names if name != NEEDS_DISK]
    with concurrent.futures.ThreadPoolExecutor(2) as pool:
        yield from zip(names, pool.map(lambda name: fault_of(program, CASES[name]), names))


# Programs that write incorrectly, and the tests that must detect it.
PLANTED_ON_PIPES = {
    'lines that are cut anywhere': (
        # The pause lets every run write its first part before any writes its second.
        '"$REAL" "$@" | { dd bs=1000 count=1 2>/dev/null; sleep 1; cat; }',
        ('whole lines', 'several runs into one pipe'),
    ),
    'messages in parts': (
        'exec 3>&1; "$REAL" "$@" 2>&1 >&3 | sed "s/^Error: /&\\x00/" | tr "\\000" "\\n" | while IFS= read -r line; '
        'do printf "%s" "$line"; [ "$line" = "Error: " ] || printf "\\n"; done >&2',
        ('whole messages',),
    ),
    'a write for each line': (
        '"$REAL" "$@" | while IFS= read -r line; do printf "%s\\n" "$line"; done',
        ('whole lines',),
    ),
    'lost output with no message': (
        '"$REAL" "$@" 2>/dev/null; exit 0',
        ('a file that may not grow', NEEDS_DISK, 'a pipe that is full'),
    ),
    'input that ends where a read would wait': ('cat 2>/dev/null | "$REAL" "$@"', ('input that waits',)),
    'messages first': (
        '"$REAL" "$@" >"$0.out"; status=$?; cat "$0.out"; exit $status',
        (
            'output before messages',
            'output before messages about lists',
            'output before messages about lists with no line',
        ),
    ),
}
