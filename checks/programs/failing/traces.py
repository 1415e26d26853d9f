"""Runs a program under strace, which lists its system calls or makes one of them fail."""
import os
import re
import signal
import subprocess
from typing import Any, NamedTuple, Sequence

from checks.programs.runs import SETTINGS

# The calls that are made to fail: those with a name, those with a descriptor, and those for memory.
BY_NAME = ('open', 'openat', 'stat', 'lstat', 'statx', 'newfstatat', 'readlink', 'readlinkat')
BY_DESCRIPTOR = ('read', 'readv', 'pread64', 'write', 'writev', 'fstat', 'getdents64', 'close', 'ioctl', 'lseek')
FOR_MEMORY = ('brk', 'mmap', 'mremap')
OPENS = {'open', 'openat'}
# Both kinds of programs ignore SIGPIPE first in `main`: the loader's calls come before that.
MAIN = ('rt_sigaction', 'SIGPIPE')
SECONDS = 20
CALL = re.compile(r'^(\w+)\((.*)\) += (\S+)(.*)$')


class Call(NamedTuple):
    """A system call: its name, its file name or descriptor, whether it needs a directory, whether it has a descriptor
    in place of a name, its result, and whether it was made to fail."""

    name: str
    target: str
    is_folder: bool
    is_open: bool
    result: int
    is_failed: bool


class Done(NamedTuple):
    """The output of a run, how it ended, and its calls: those before `main`, and those from there on."""

    out: bytes
    err: bytes
    status: Any
    before: list
    calls: list


def call_of(line):
    """The call of a line of strace, or None."""
    found = CALL.match(line)
    if not found:
        return None
    name, args, result, rest = found.groups()
    # `fstat` of the C library is a look-up of the empty name in a descriptor.
    is_open = name not in BY_NAME or 'AT_EMPTY_PATH' in args
    named = re.match(r'\w+', args) if is_open else re.search(r'"((?:[^"\\]|\\.)*)"', args)
    target = named[named.lastindex or 0] if named else ''
    number = re.match(r'-?[0-9]+', result)
    return Call(name, target, 'O_DIRECTORY' in args, is_open, int(number[0]) if number else -1, '(INJECTED)' in rest)


def calls_of(path):
    """The calls of a trace, in two parts: before `main`, and from there on."""
    with open(path, encoding='utf-8', errors='replace') as file:
        calls = [call for call in map(call_of, file) if call]
    begins = next((at for at, call in enumerate(calls) if (call.name, call.target) == MAIN), None)
    if begins is None:
        return calls, []
    return calls[: begins + 1], calls[begins + 1 :]


def ended(process):
    """The output of the process, and its status. One that does not end is killed, with everything that it started."""
    try:
        out, err = process.communicate(timeout=SECONDS)
        return out or b'', err or b'', process.returncode
    except subprocess.TimeoutExpired:
        os.killpg(process.pid, signal.SIGKILL)
        out, err = process.communicate()
        return out or b'', err or b'', f'not ended after {SECONDS} s'


def traced(command: Sequence[str], injections: Sequence[str], streams: Any, folder: str, trace: str) -> Done:
    """Runs these arguments with these faults, and over these streams."""
    names = ','.join(f'?{name}' for name in (*BY_NAME, *BY_DESCRIPTOR, *FOR_MEMORY, MAIN[0]))
    strace = ['strace', '-qq', '-s', '0', '-o', trace, '-e', f'trace={names}', '-e', 'signal=none']
    faults = [word for fault in injections for word in ('-e', f'inject={fault}')]
    process = subprocess.Popen(
        [*strace, *faults, *command], cwd=folder, env=SETTINGS, start_new_session=True, **streams
    )
    out, err, status = ended(process)
    return Done(out, err, status, *calls_of(trace))


def injection(before: Any, calls: Sequence[Call], at: int, error: str) -> list[str]:
    """Makes the call of this index fail. strace counts the calls of one name, from the program's start on."""
    name = calls[at].name
    count = sum(call.name == name for call in [*before, *calls[: at + 1]])
    return [f'{name}:error={error}:when={count}']


def vanishing(before: Any, calls: Sequence[Call], places: Sequence[int]) -> list[str]:
    """Makes the calls of these indices fail, at most two of each name, since their file has vanished. A name that can't
    be looked up is also opened as a directory."""
    counts = {}
    for at in places:
        name = calls[at].name
        counts.setdefault(name, []).append(sum(call.name == name for call in [*before, *calls[: at + 1]]))
    for name in OPENS & counts.keys():
        counts[name].append(counts[name][-1] + 1)
    return [
        f'{name}:error=ENOENT:when={first}..{last}+{max(last - first, 1)}'
        for name, (first, *_, last) in ((name, each * 2 if len(each) == 1 else each) for name, each in counts.items())
    ]


def memory_injections(before: Any, calls: Sequence[Call], at: int) -> list[str]:
    """Makes the call of this index fail, and each one for memory after it. The system's `brk` fails without an
    error, by returning less than was requested."""
    earlier = [*before, *calls[:at]]
    counts = {name: sum(call.name == name for call in earlier) for name in FOR_MEMORY}
    ways = {name: 'retval=0' if name == 'brk' else 'error=ENOMEM' for name in FOR_MEMORY}
    return [f'{name}:{ways[name]}:when={count + 1}+' for name, count in counts.items()]
