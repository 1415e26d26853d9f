"""Refuses the memory that the programs allocate, by a preloaded library and by small limits of their address space.
Each run ends with its message, or as if nothing had been refused."""
import os
import resource
import subprocess

from checks.lib.report import Report, check
from checks.lib.tools import must, write

SOURCE = os.path.join(os.path.dirname(os.path.abspath(__file__)), 'refused.c')
# The status and the message of each program.
ENDS = {'xxh': (3, b'xxh: out of memory\n'), 'xxhsum': (1, b'\nError: Out of memory.\n')}
STATE = (
    '{"buffer":[72,101,108,108,111,44,32,119,111,114,108,100,33,0,0,0],"buffer_usage":14,'
    '"core":{"v1":606290984,"v2":2246822519,"v3":0,"v4":1640531535},"seed":0,"total_len":14}'
)
# A path longer than those that Rust's library copies to the stack.
LONG = 'folder/' * 60 + 'file'
TASKS = {
    'a digest': ('xxh', 'hash', '64', '1234'),
    'blocks': ('xxh', 'blocks', '4'),
    'a saved state': ('xxh', 'save', '32'),
    'a state that is resumed': ('xxh', 'resume', '32', STATE),
    'files': ('xxhsum', 'a', 'b', 'nowhere'),
    'a list': ('xxhsum', '-c', 'list'),
    'names': ('xxhsum', '--files-from', 'names'),
    'folders': ('xxhsum', '-r', 'short'),
    'an audit': ('xxhsum', '--audit', '-r', 'list', 'short', 'a', 'b'),
    'the help': ('xxhsum', '--help'),
}
# After this many runs in a row in which nothing was refused, there is no further allocation.
UNHARMED = 4


def lay_out(workdir, programs):
    for name in ('a', 'b', 'short/c', 'short/folder/d', LONG):
        write(os.path.join(workdir, name), name * 50)
    write(os.path.join(workdir, 'names'), 'a\nb\nshort/c\n')
    write(os.path.join(workdir, 'list'), did(programs, ('xxhsum', 'a', 'b', 'short/c', 'short/folder/d'), workdir)[0])


def did(programs, task, workdir, limit=None, **variables):
    def limited():
        resource.setrlimit(resource.RLIMIT_AS, (limit, limit))

    done = subprocess.run(
        [programs[task[0]], *task[1:]],
        input=b'some bytes',
        capture_output=True,
        cwd=workdir,
        timeout=30,
        env={**os.environ, **variables},
        preexec_fn=limited if limit else None,
    )
    return done.stdout, done.stderr, done.returncode


def is_reported(name, expected, found):
    """True if a run reported that it was out of memory, and printed nothing that it doesn't print with memory."""
    status, message = ENDS[name]
    return found[2] == status and found[1].endswith(message) and expected[0].startswith(found[0])


def refuse_each(programs, task, workdir, library, ending):
    """The number of refused allocations."""
    expected, number, reported, unharmed = did(programs, task, workdir), 0, 0, 0
    while unharmed < UNHARMED:
        number += 1
        found = did(programs, task, workdir, LD_PRELOAD=library, REFUSED=f'{number}{ending}')
        if found == expected:
            unharmed += 1
            continue
        check(is_reported(task[0], expected, found), f'call {number}{ending}: {found}')
        reported, unharmed = reported + 1, 0
    check(reported or task[1] == '--help' or number > UNHARMED, 'nothing was refused')
    return reported


def both(programs, task, workdir, library):
    return f'{sum(refuse_each(programs, task, workdir, library, ending) for ending in ("", ".."))} refusals'


def in_little(programs, workdir, library):
    """Digests of long paths with this many bytes of memory, and with 16 more each time, until nothing is refused."""
    reported = set()
    for args in ((LONG,), ('-r', 'folder'), ('--audit', 'list', LONG)):
        expected, size, found = did(programs, ('xxhsum', *args), workdir), 0, None
        while found != expected:
            size += 16
            check(size < 10**6, 'a million bytes are too few')
            found = did(programs, ('xxhsum', *args), workdir, LD_PRELOAD=library, REFUSED=f'={size}')
            check(
                found == expected or found[2] == 1 and b'ut of memory' in found[1], f'{args} in {size} bytes: {found}'
            )
            reported.add(found[1][-40:])
    check(len(reported) > 2, f'the messages are {reported}')
    return f'{len(reported)} messages'


# In MiB. Below 4 the loader or the stack doesn't fit.
LIMITS = (4, 4.25, 4.5, 4.75, 5, 5.5, 6, 7, 8, 9, 10, 12, 16, 20, 32, 64)


def many_arguments(programs, workdir):
    """This many arguments, which need megabytes."""
    task = ('xxhsum', '-H3', *['a'] * 9000)
    expected, reported = did(programs, task, workdir), 0
    for limit in LIMITS:
        found = did(programs, task, workdir, int(limit * 2**20))
        check(
            found == expected or is_reported('xxhsum', expected, found), f'{limit} MiB: {found[1][-100:]}, {found[2]}'
        )
        reported += found != expected
    check(0 < reported < len(LIMITS), f'{reported} of {len(LIMITS)} limits are too small')
    return f'{reported} of {len(LIMITS)} limits are too small'


def check_all(report: Report, programs: dict[str, str], workdir: str) -> None:
    library = os.path.join(workdir, 'refused.so')
    must(['gcc', '-O1', '-fno-builtin', '-shared', '-fPIC', SOURCE, '-o', library])
    folder = os.path.join(workdir, 'refused')
    os.mkdir(folder)
    lay_out(folder, programs)
    for name, task in TASKS.items():
        report.attempt(f'no memory: {name}', both, programs, task, folder, library)
    report.attempt('little memory: long paths', in_little, programs, folder, library)
    report.attempt('little memory: 9,000 arguments', many_arguments, programs, folder)
