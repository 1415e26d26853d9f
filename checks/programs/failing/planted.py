"""Wrong results of wrong programs, which the check of failing calls must detect."""

from typing import Callable, Sequence

from .. import messages
from .traces import Call


def reported_twice(done):
    return done._replace(err=done.err * 2)


def instead(**parts):
    """The result with other parts."""
    return lambda done: done._replace(**parts)


def of_another_reason(done):
    return done._replace(err=done.err.replace(b'Stale file handle', b'Input/output error'))


silent, well, hanging = instead(err=b''), instead(status=0), instead(status='not ended')
# As if there were no such name or directory.
passed_over = instead(out=b'', err=b'', status=0)


def with_line(line):
    return lambda done: done._replace(out=done.out + line)


def of_another_name(done):
    return done._replace(err=done.err.replace(b"'a'", b"'e'"))


def without_last_line(done):
    return done._replace(out=b''.join(done.out.splitlines(keepends=True)[:-1]))


def failed(done):
    return done._replace(status=1, err=done.err + messages.unopened('a', messages.IO_ERROR))


def message_first(done):
    """The message about memory before the last buffered line."""
    *lines, last, empty, message = done.out.splitlines(keepends=True)
    return done._replace(out=b''.join([*lines, empty, message, last]))


# The mistake, and the scenario, call and error whose result it replaces.
PLANTED = {
    'a status of 0 after a failed read': ('one file', 'read', 'EIO', well),
    'a failed read that is not reported': ('one file', 'read', 'EIO', silent),
    'a failed read that is reported twice': ('one file', 'read', 'EIO', reported_twice),
    'a failed read with another reason': ('one file', 'read', 'ESTALE', of_another_reason),
    'a failed read of another name': ('one file', 'read', 'EIO', of_another_name),
    'a digest of a file that was not read': ('one file', 'read', 'EIO', with_line(b'26c7827d889f6da3  a\n')),
    'an interrupted read that is not repeated': ('one file', 'read', 'EINTR', failed),
    'a failed open that is passed over': ('one file', 'openat', 'EMFILE', passed_over),
    'a failed close that changes the status': ('one file', 'close', 'EIO', failed),
    'a failed look-up of a terminal that does': ('one file', 'ioctl', 'EIO', failed),
    'output that goes on after a failed write': ('one file', 'write', 'ENOSPC', with_line(b'26c7827d889f6da3  a\n')),
    'lost output with the status 0': ('one file', 'write', 'EIO', well),
    'a run that hangs': ('one file', 'read', 'EIO', hanging),
    'a folder that is passed over': ('files below a folder', 'openat', 'EACCES', passed_over),
    'a folder whose names end early': ('files below a folder', 'getdents64', 'EIO', passed_over),
    'a name below a folder that is passed over': ('files below a folder', 'statx', 'EIO', without_last_line),
    'a line of a list that is lost': ('a good list', 'close', 'EIO', without_last_line),
    'a list that breaks off, with the status 0': ('a good list', 'read', 'EIO', well),
    'an audit that calls a file missing that was not read': ('an audit', 'read', 'EIO', with_line(b'a: missing\n')),
    'a message on memory before the output that waits': (
        'a list, both streams one pipe',
        'brk',
        'ENOMEM',
        message_first,
    ),
    'a failed read of the input with another reason': ('input', 'read', 'ESTALE', of_another_reason),
    'a failed read of a list with another reason': ('a good list', 'read', 'ESTALE', of_another_reason),
    'a failed read of `xxh` with another reason': ('xxh hash 64, of a', 'read', 'ESTALE', of_another_reason),
    'a failed read of `xxh` with the status 0': ('xxh hash 64, of a', 'read', 'EINTR', well),
}


def failing_call(calls: Sequence[Call], name: str, error: str, errors_of: Callable[[Call], Sequence[str]]) -> int:
    """The index of the first call of this name; for look-ups the one below a directory, which has no alternative;
    for memory the last one, so that some output is buffered."""
    at = [it for it, call in enumerate(calls) if call.name == name and error in errors_of(call)]
    if name == 'brk':
        return at[-1]
    return next((it for it in at if '/' in calls[it].target), at[0]) if name == 'statx' else at[0]
