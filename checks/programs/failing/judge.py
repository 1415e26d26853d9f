"""The expected result of a run in which one system call fails."""
from typing import Sequence

from .scenarios import INPUT, Scenario
from .traces import BY_NAME, FOR_MEMORY, Call, Done
from .worlds import NO_MEMORY, WRITE_FAILED, Fault, Outcome

# The errors of each call. Linux returns each of these for some file system or device.
ERRORS = {
    **{name: ('EIO', 'EACCES', 'EMFILE', 'EINTR', 'ESTALE', 'ENXIO', 'EUCLEAN') for name in ('open', 'openat')},
    'read': ('EIO', 'EACCES', 'EINTR', 'EAGAIN', 'EISDIR', 'ESTALE', 'EUCLEAN'),
    'write': ('EIO', 'ENOSPC', 'EINTR', 'EAGAIN'),
    'getdents64': ('EIO', 'EACCES', 'EINTR', 'ENOENT', 'ESTALE', 'EUCLEAN'),
    'close': ('EIO', 'EINTR'),
    'ioctl': ('EIO',),
    **{
        name: ('EIO', 'EACCES', 'EMFILE', 'ESTALE', 'EUCLEAN')
        for name in ('stat', 'lstat', 'statx', 'newfstatat', 'readlink', 'readlinkat')
    },
}
WHYS = {
    'EIO': 'Input/output error',
    'EACCES': 'Permission denied',
    'EMFILE': 'Too many open files',
    'EINTR': 'Interrupted system call',
    'ENOSPC': 'No space left on device',
    'ESTALE': 'Stale file handle',
    'ENXIO': 'No such device or address',
    'EAGAIN': 'Resource temporarily unavailable',
    'ENOENT': 'No such file or directory',
    'EISDIR': 'Is a directory',
    'EUCLEAN': 'Structure needs cleaning',
}
OPENS = ('open', 'openat')
READS = ('read', 'readv', 'pread64')
WRITES = ('write', 'writev')


def errors_of(call: Call) -> Sequence[str]:
    """The errors for this call: all of one class alike."""
    if call.name in FOR_MEMORY:
        # Without an address, `brk` only returns the end of the memory.
        return () if (call.name, call.target) == ('brk', 'NULL') else ('ENOMEM',)
    like = 'read' if call.name in READS else 'write' if call.name in WRITES else call.name
    return ERRORS.get(like, ('EIO',))


def opened_as(calls, at):
    """The call that opened the descriptor of this one, by its index, or None for a standard stream."""
    number = int(calls[at].target or -1)
    return next((it for it in range(at - 1, -1, -1) if calls[it].name in OPENS and calls[it].result == number), None)


def name_of(calls, at):
    """The name of the file of this call, as it was passed to the program."""
    call = calls[at]
    if call.name in BY_NAME and not call.is_open:
        return call.target
    opened = opened_as(calls, at)
    return INPUT if opened is None else calls[opened].target


def given_before(calls, at):
    """The number of bytes that the reads of the same file returned before this one."""
    opened = opened_as(calls, at) or 0
    return sum(
        call.result
        for call in calls[opened:at]
        if call.name in READS and call.target == calls[at].target and call.result > 0
    )


def faults_of(calls, at, error):
    """The possible meanings of the failing call for the program: an error with a name, or None if it has an
    alternative."""
    call, name, why = calls[at], name_of(calls, at), WHYS[error]
    bare = name[:-1] if name.endswith('/') else name
    if call.name in OPENS:
        step = 'folder' if call.is_folder else 'open'
        return (
            [None, Fault(step, bare, why)]
            if error == 'EINTR' or call.is_folder and bare == name
            else [Fault(step, bare, why)]
        )
    if call.name in READS:
        return [Fault('read', name, why, given_before(calls, at))]
    if call.name == 'getdents64':
        return [Fault('folder', bare, why)]
    if call.name in BY_NAME:
        return [None, Fault('look-up', bare, why)]
    return [None]


def is_tried(scenario: Scenario, calls: Sequence[Call], at: int) -> bool:
    """True if this call is made to fail: in runs into one pipe those for memory, and the reads of the lists."""
    if scenario.out != 'merged' or calls[at].name in FOR_MEMORY:
        return True
    return calls[at].name in READS and name_of(calls, at) in scenario.args


# ---- whether a run is as expected


def text(outcome: Outcome) -> tuple[bytes, bytes, int]:
    return outcome.out.encode(), outcome.err.encode(), outcome.status


def written(calls, at):
    """The number of bytes that the output took before this call."""
    return sum(call.result for call in calls[:at] if call.name in WRITES and call.target == '1' and call.result > 0)


def after_failed_write(scenario, right, calls, at, done):
    """The error after a failed write: output must be reported as lost; a message that is lost changes nothing."""
    out, err = right.out.encode(), right.err.encode()
    if calls[at].target == '2':
        is_well = (done.out, done.status) == (out, right.status) and err.startswith(done.err)
        return '' if is_well else 'a lost message changed more than the messages'
    message = WRITE_FAILED.encode() if scenario.program == 'xxhsum' else b'xxh: write failed\n'
    if done.status != 1 or not done.err.endswith(message):
        return 'the lost output is not reported'
    if done.out != out[: written(calls, at)]:
        return 'the output is not what was written before'
    return '' if err.startswith(done.err[: -len(message)]) else 'another message than those of the run'


def after_no_memory(scenario, right, done):
    """The error of a run out of memory: it must be unchanged, or stop with a message."""
    if (done.out, done.err, done.status) == text(right):
        return ''
    message, status = (NO_MEMORY.encode(), 1) if scenario.program == 'xxhsum' else (b'xxh: out of memory\n', 3)
    if scenario.out == 'merged':
        is_well = (
            done.status == status
            and done.out.endswith(message)
            and right.out.encode().startswith(done.out[: -len(message)])
        )
        return '' if is_well else 'neither the right output nor a beginning of it and then a message on memory'
    if done.status != status or not done.err.endswith(message):
        return 'neither the right output nor a message on memory'
    begins = right.out.encode().startswith(done.out) and right.err.encode().startswith(done.err[: -len(message)])
    return '' if begins else 'what was printed before is no beginning of the right output'


def is_repeated(scenario, call, error):
    """True if an interrupted read is repeated: `xxh` reports each as failed."""
    return error == 'EINTR' and call.name in (*READS, 'getdents64') and scenario.program == 'xxhsum'


def fault_in(scenario: Scenario, right: Outcome, planned: Sequence[Call], at: int, error: str, done: Done) -> str:
    """The error of a run in which the call of this index failed, or nothing."""
    if not any(call.is_failed for call in done.calls) or any(call.is_failed for call in done.before):
        return 'the call did not fail'
    if isinstance(done.status, str):
        return done.status
    call = planned[at]
    if call.name in FOR_MEMORY:
        return after_no_memory(scenario, right, done)
    if scenario.out not in ('pipe', 'merged'):
        return '' if done.status and not done.out else 'lost output, and the status is 0'
    if call.name in WRITES:
        return after_failed_write(scenario, right, planned, at, done)
    faults = [None] if is_repeated(scenario, call, error) else faults_of(planned, at, error)
    outcome = scenario.outcome or (lambda fault: right)
    allowed = [text(right if fault is None else outcome(fault)) for fault in faults]
    return '' if (done.out, done.err, done.status) in allowed else f'expected {" or ".join(map(repr, allowed))}'


def right_of(scenario: Scenario, done: Done) -> Outcome:
    """The expected result without a failure. Help and version are compared elsewhere."""
    if scenario.outcome is None or scenario.out not in ('pipe', 'merged'):
        return Outcome(done.out.decode(), done.err.decode(), done.status)
    return scenario.outcome(None)
