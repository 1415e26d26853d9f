"""Shared by the tests of `xxhsum`: runs, names as lines have them, and planted programs."""
import fcntl
import json
import os
import subprocess
from typing import Any, Optional, Sequence, Union

from checks.lib.tools import write

# Arguments of a run, and its output, errors and status.
Args = Sequence[Union[str, bytes]]
Result = tuple[bytes, bytes, int]
# Messages of the system are in English.
SETTINGS = {**os.environ, 'LC_ALL': 'C'}
# The options of the algorithms.
HASHES = ('-H0', '-H1', '-H2', '-H3')


def found(program: str, args: Args, given: bytes = b'', seconds: Optional[float] = None) -> Result:
    """The output, the errors and the status of a run with this standard input."""
    done = subprocess.run([program, *args], input=given, capture_output=True, timeout=seconds, check=False)
    return done.stdout, done.stderr, done.returncode


def escaped(text: bytes) -> bytes:
    """Escapes backslashes and line ends, as lines of lists do."""
    return text.replace(b'\\', b'\\\\').replace(b'\n', b'\\n').replace(b'\r', b'\\r')


def marked(text: bytes) -> bytes:
    """Escapes a text that begins a line, which then begins with a backslash."""
    shown = escaped(text)
    return shown if shown == text else b'\\' + shown


def json_object(state: str, name: bytes, old: bytes = b'', listed: bytes = b'', actual: bytes = b'') -> bytes:
    """A result of an audit as a JSON object, which Python's `json` writes."""
    members = {'name': name, 'state': state.encode(), 'from': old, 'listed': listed, 'actual': actual}
    given = {
        key: value.decode('utf-8' if is_utf8(value) else 'ascii', 'surrogateescape')
        for key, value in members.items()
        if value
    }
    text = json.dumps(given, ensure_ascii=False, separators=(',', ':'))
    return text.encode(errors='backslashreplace') + b'\n'


def is_utf8(text: bytes) -> bool:
    try:
        text.decode()
        return True
    except UnicodeDecodeError:
        return False


# Runs a line of sh with a disk of this many bytes at $DISK, which nothing outside of the run sees.
DISK_SIZE = 65536
ON_DISK = (
    'unshare',
    '--user',
    '--map-root-user',
    '--mount',
    'sh',
    '-c',
    f'mount -t tmpfs -o size={DISK_SIZE} none "$DISK" && eval "$1"',
    'sh',
)


def on_small_disk(program: str, args: Args, folder: str, given: bytes = b'') -> Result:
    """A run whose output is a file on a disk of 64 KiB: what the file has, the errors and the status."""
    disk, copy = os.path.join(folder, 'disk'), os.path.join(folder, 'copy')
    os.makedirs(disk, exist_ok=True)
    line = 'shift; "$@" >"$DISK/out"; status=$?; cat "$DISK/out" >"$COPY"; exit $status'
    done = subprocess.run(
        [*ON_DISK, line, program, *args],
        input=given,
        stderr=subprocess.PIPE,
        cwd=folder,
        check=False,
        env={**SETTINGS, 'DISK': disk, 'COPY': copy},
    )
    with open(copy, 'rb') as file:
        return file.read(), done.stderr, done.returncode


def no_small_disk(folder: str) -> str:
    """Why no disk can be mounted, or nothing."""
    done = subprocess.run(
        [*ON_DISK, 'true'], stderr=subprocess.PIPE, text=True, env={**SETTINGS, 'DISK': folder}, check=False
    )
    return done.stderr.strip() if done.returncode else ''


def without_waiting(file: Any) -> Any:
    """Sets O_NONBLOCK, so that a call that would wait fails."""
    fcntl.fcntl(file, fcntl.F_SETFL, fcntl.fcntl(file, fcntl.F_GETFL) | os.O_NONBLOCK)
    return file


def into_full_pipe(program: str, args: Args, folder: str, given: bytes = b'') -> Result:
    """A run into a pipe that doesn't wait and that nobody reads: what the pipe has, the errors and the status."""
    ours, theirs = os.pipe()
    done = subprocess.run(
        [program, *args],
        input=given,
        stdout=without_waiting(theirs),
        stderr=subprocess.PIPE,
        cwd=folder,
        env=SETTINGS,
        check=False,
    )
    os.close(theirs)
    with open(ours, 'rb') as file:
        return file.read(), done.stderr, done.returncode


def plant(path: str, real: str, script: str) -> None:
    """Writes a program that does what the script does with the real one, $REAL."""
    write(path, f'#!/bin/sh\nREAL={real}\n{script}\n', 0o755)
