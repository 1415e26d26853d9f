"""Runs the built program `xxh` on a table of arguments and inputs: its output, its messages, and its status, also if a
stream is closed, full, broken or a directory.

    checks/program             proves and builds the program first, by both compilers of the toolchain
    checks/program --of-ci     uses what `rt ci` has proved and built just before
    checks/program PROGRAM..   uses these programs, and needs no `rt`

The last line is "N passed, M failed". The digests are those of the reference library 0.8.1: of `oracle/vectors.txt`
and of Debian's `xxhsum`, which were run by hand; none is from this program. It needs /dev/full."""
import os
import resource
import shutil
import signal
import subprocess
import sys
import tempfile

from checks.lib import command
from checks.lib.report import Report
from checks.lib.tools import TOP, proved_program, write

from .runs import DISK_SIZE, into_full_pipe, no_small_disk, on_small_disk, without_waiting

USAGE = b'xxh: usage: xxh hash|save|resume 32|64|3-64|3-128 [SEED|JSON] or xxh blocks SIZE\n'
SEED = b'xxh: bad seed\n'
SIZE = b'xxh: bad size\n'
STATE = b'xxh: bad state\n'
READ = b'xxh: read failed: %s\n'
WRITE = b'xxh: write failed\n'

# Bytes of a file that may not grow: fewer than each line has.
LIMIT = 20

SOME = b'some bytes'
HELLO = b'Hello, world!\0'
STATE_32 = (
    b'{"buffer":[72,101,108,108,111,44,32,119,111,114,108,100,33,0,0,0],"buffer_usage":14,'
    b'"core":{"v1":606290984,"v2":2246822519,"v3":0,"v4":1640531535},"seed":0,"total_len":14}'
)
STATE_64 = (
    b'{"buffer":[72,101,108,108,111,44,32,119,111,114,108,100,33' + b',0' * 19 + b'],"buffer_usage":14,'
    b'"core":{"v1":6983438078262162902,"v2":14029467366897019727,"v3":0,"v4":7046029288634856825},'
    b'"seed":0,"total_len":14}'
)
# Of its low 32 bits the usage would be 14.
LARGE_USAGE = b'"buffer_usage":%d,' % (2**32 + 14)
LARGE_32, LARGE_64 = (state.replace(b'"buffer_usage":14,', LARGE_USAGE) for state in (STATE_32, STATE_64))
PAIRS = (
    b'0000000000000000 6a4a5274c1b0d3add6645fc3051a9457\n'
    b'0000000000000002 6a4a5274c1b0d3add6645fc3051a9457\n'
    b'0000000000000004 a6cd5e9392000f6ac44bdff4074eecdb\n'
)


def gen(n):
    """The bytes 0 to 250, repeated."""
    return bytes(i % 251 for i in range(n))


# Arguments, input, output, messages, status.
TABLE = [
    # Digests: every algorithm, no seed, a seed, leading zeros, the maximum seeds, no input, input longer than the
    # buffers.
    *(
        (f'hash {args}', given, digest + b'\n', b'', 0)
        for args, given, digest in (
            ('32', b'', b'02cc5d05'),
            ('64', b'', b'ef46db3751d8e999'),
            ('3-64', b'', b'2d06800538d394c2'),
            ('3-128', b'', b'99aa06d3014798d86001c324468d497f'),
            ('3-128', SOME, b'99736577b441a1bbd3ec197fe371e984'),
            ('32', SOME, b'29f97ecd'),
            ('64', SOME, b'55cfd3deadcabb2a'),
            ('3-64', SOME, b'45c97cf9b0447624'),
            ('32 1234', SOME, b'92f68bd9'),
            ('64 1234', SOME, b'eab55659a496d78b'),
            ('64 0001234', SOME, b'eab55659a496d78b'),
            ('3-64 1234', SOME, b'582ee33d9ad8c6e9'),
            ('3-128 1234', SOME, b'd13af43e9c4507cfc327b2ddc4f87078'),
            ('32 4294967295', SOME, b'17343bb3'),
            ('64 18446744073709551615', SOME, b'68cffc67a3e39e33'),
            ('3-64 18446744073709551615', SOME, b'f2bedbe5c1d104be'),
            ('3-128 18446744073709551615', SOME, b'bff237cde472fcf2e98c75f91e037435'),
            ('64', gen(65535), b'fc26b00b70f81612'),
            ('64', gen(65536), b'316c40df46fe2584'),
            ('64', gen(65537), b'8c8e0218a8ee0fee'),
            ('64', gen(200000), b'3c72c119d42ed27f'),
            ('3-64', gen(1000), b'33ef703fb2b20ed1'),
            ('3-64 1234', gen(1000), b'1a9bb61145209c40'),
            ('3-64 18446744073709551615', gen(1000), b'0b11f8e19143a7f5'),
            ('3-128', gen(1000), b'18bf41bc8229e27733ef703fb2b20ed1'),
            ('3-128 1234', gen(1000), b'a77b8dbd23383ab61a9bb61145209c40'),
            ('3-128 18446744073709551615', gen(1000), b'615c4c1b6684f49c0b11f8e19143a7f5'),
        )
    ),
    # Saved texts, and digests that continue from them.
    ('save 32', HELLO, STATE_32 + b'\n', b'', 0),
    ('save 64 0', HELLO, STATE_64 + b'\n', b'', 0),
    ([b'resume', b'32', STATE_32], b'', b'9e5e7e93\n', b'', 0),
    ([b'resume', b'64', STATE_64], b'', b'7b06c531ea43e89f\n', b'', 0),
    ([b'resume', b'64', STATE_64 + b'\n'], b'', b'7b06c531ea43e89f\n', b'', 0),
    # Lines of blocks.
    ('blocks 2', bytes([0, 1, 0, 1, 0]), PAIRS, b'', 0),
    ('blocks 0002', bytes([0, 1, 0, 1]), PAIRS[:100], b'', 0),
    ('blocks 2', b'', b'', b'', 0),
    (
        'blocks 241',
        gen(241) + gen(4),
        b'0000000000000000 1da1cb61bcb8a2a102e8cd95421c6d02\n' b'00000000000000f1 eb70bf5fc779e9e6a6111d53e80a3db5\n',
        b'',
        0,
    ),
    ('blocks 10240', gen(10240), b'0000000000000000 4f6375cca7ece1e1bcd63266df6e2244\n', b'', 0),
    ('blocks 18446744073709551615', gen(10240), b'0000000000000000 4f6375cca7ece1e1bcd63266df6e2244\n', b'', 0),
    *(
        (args, SOME, b'', message, 2)
        for message, refused in {
            # Arguments that are no command, and some that are not UTF-8.
            USAGE: (
                [],
                'hash',
                'hash 65',
                'HASH 64',
                'hash 64 1 2',
                [b'hash ', b'64'],
                [b'hash', b' 64'],
                'save 3-64',
                'save 3-128 1',
                'resume 64',
                'resume 3-64 {}',
                'blocks',
                'blocks 4 5',
                '--help x',
                '-h',
                '--Help',
                [b'\xff'],
                [b'hash', b'64\xff'],
                [b'hash', b'64', b'\xc3('],
                [b'resume', b'32', STATE_32, b'\x80'],
            ),
            # Invalid seeds, sizes and states.
            SEED: (
                'hash 32 4294967296',
                'hash 64 18446744073709551616',
                'hash 64 +1',
                'save 32 x',
                [b'hash', b'64', b''],
                [b'hash', b'64', b' 1'],
            ),
            SIZE: ('blocks 0', 'blocks 18446744073709551616', 'blocks -1'),
            STATE: (
                'resume 64 {}',
                [b'resume', b'32', STATE_64],
                [b'resume', b'32', STATE_32[:-1]],
                [b'resume', b'32', LARGE_32],
                [b'resume', b'64', LARGE_64],
                *(
                    [b'resume', b'64', STATE_64 + behind]
                    for behind in (b'x', b' }', b'\n0', b',', b'{}', b'\xc3\xa9', STATE_64)
                ),
            ),
        }.items()
        for args in refused
    ),
]


class Run:
    """A program, and the differences."""

    def __init__(self, program, title):
        self.program, self.title, self.count, self.failed = program, title, 0, 0

    def check(self, name, found, expected):
        self.count += 1
        if found != expected:
            self.failed += 1
            print(f'{self.title}: {name}\n  found    {found}\n  expected {expected}', file=sys.stderr)

    def command(self, args):
        return [self.program] + (args.split() if isinstance(args, str) else args)

    def test(self, args, given, out, err, status):
        done = subprocess.run(self.command(args), input=given, capture_output=True, timeout=20)
        self.check(args, (done.stdout, done.stderr, done.returncode), (out, err, status))

    def ends(self, name, args, status, err, preexec=None, **ends):
        """A run over streams of the caller: its status, and its messages if standard error is not closed."""
        errors = ends.pop('stderr', subprocess.PIPE)
        done = subprocess.Popen(self.command(args), stderr=errors, preexec_fn=preexec, **ends)
        found = done.communicate(timeout=20)
        self.check(name, (done.returncode, found[1] or b''), (status, err))
        return found[0]


def closed(number):
    return lambda: os.close(number)


# A digest, a saved text, lines of blocks and a digest that continues, all of ten bytes.
ALL = ['hash 64 1234', 'save 64 1234', 'blocks 4', [b'resume', b'64', STATE_64]]


def over_hostile_ends(run, workdir):
    given = write(os.path.join(workdir, 'input'), SOME)
    for args in ALL:
        # A full disk, a pipe without a reader, and no output at all.
        with open(given, 'rb') as r, open('/dev/full', 'wb') as w:
            run.ends(('full', args), args, 1, WRITE, stdin=r, stdout=w)
        reads, writes = os.pipe()
        os.close(reads)
        with open(given, 'rb') as r:
            run.ends(('broken', args), args, 1, WRITE, stdin=r, stdout=writes)
        os.close(writes)
        with open(given, 'rb') as r:
            run.ends(('closed output', args), args, 1, WRITE, closed(1), stdin=r)
        # A directory as the input, and no input at all: nothing is printed.
        folder = os.open(workdir, os.O_RDONLY)
        out = run.ends(('folder', args), args, 1, READ % b'Is a directory', stdin=folder, stdout=subprocess.PIPE)
        run.check(('folder, printed', args), out, b'')
        os.close(folder)
        out = run.ends(
            ('closed input', args), args, 1, READ % b'Bad file descriptor', closed(0), stdout=subprocess.PIPE
        )
        run.check(('closed input, printed', args), out, b'')
    # An error whose message cannot be written keeps its status.
    with open('/dev/full', 'wb') as w:
        run.ends('full error', 'hash 64 x', 2, b'', stdin=subprocess.DEVNULL, stdout=w, stderr=w)
    run.ends('closed error', 'hash', 2, b'', closed(2), stdin=subprocess.DEVNULL, stdout=subprocess.DEVNULL)


def over_information(run):
    """The help and the version are on standard output, and a failed write of them is reported. Nothing is read."""
    for args, begins in (
        ('--help', b'xxh prints digests of standard input'),
        ('--version', b'xxh 0.1.0 of twox_hash\n'),
    ):
        done = subprocess.run(run.command(args), stdin=subprocess.DEVNULL, capture_output=True, timeout=20)
        run.check(args, (done.stdout[: len(begins)], done.stderr, done.returncode), (begins, b'', 0))
        with open('/dev/full', 'wb') as w:
            run.ends((args, 'full'), args, 1, WRITE, stdin=subprocess.DEVNULL, stdout=w)


def over_limited_file(run, workdir):
    """The last write is short: a file may not grow past a limit. The first lines are there, and the loss is
    reported."""

    def limit():
        signal.signal(signal.SIGXFSZ, signal.SIG_IGN)
        resource.setrlimit(resource.RLIMIT_FSIZE, (LIMIT, LIMIT))

    path = os.path.join(workdir, 'limited')
    for args in ('blocks 2', 'save 64', 'hash 3-128'):
        with open(write(os.path.join(workdir, 'input'), bytes([0, 1])), 'rb') as given, open(path, 'wb') as limited:
            run.ends(('limited file', args), args, 1, WRITE, limit, stdin=given, stdout=limited, restore_signals=False)
        run.check(('limited file, written', args), os.path.getsize(path), LIMIT)


def over_small_disk(run, workdir):
    """The last write is short: a disk of 64 KiB is filled to its last byte. The loss is reported."""
    given, args = gen(4000), ['blocks', '1']
    whole = subprocess.run([run.program, *args], input=given, capture_output=True, timeout=20).stdout
    why = no_small_disk(workdir)
    if why:
        print(f'{run.title}: skipped a disk of 64 KiB: {why}')
        return
    found = on_small_disk(run.program, args, workdir, given)
    run.check('a disk of 64 KiB', found, (whole[:DISK_SIZE], WRITE, 1))


def over_full_pipe(run, workdir):
    """A write that would wait fails, and so does such a read. The loss is reported."""
    given, args = gen(4000), ['blocks', '1']
    whole = subprocess.run([run.program, *args], input=given, capture_output=True, timeout=20).stdout
    out, err, status = into_full_pipe(run.program, args, workdir, given)
    run.check(
        'a pipe that is full', (whole.startswith(out), 0 < len(out) < len(whole), err, status), (True, True, WRITE, 1)
    )
    ours, theirs = os.pipe()
    os.write(theirs, SOME)
    run.ends(
        'input that waits',
        'hash 64',
        1,
        READ % b'Resource temporarily unavailable',
        stdin=without_waiting(ours),
        stdout=subprocess.DEVNULL,
    )
    os.close(ours)
    os.close(theirs)


def over_slow_pipe(run):
    """Lines are written before a read that blocks: the first is there while the input is still open."""
    done = subprocess.Popen(run.command('blocks 2'), stdin=subprocess.PIPE, stdout=subprocess.PIPE)
    done.stdin.write(bytes([0, 1, 0]))
    done.stdin.flush()
    run.check('a line before the next read', os.read(done.stdout.fileno(), 1000), PAIRS[:50])
    done.stdin.write(bytes([1, 0]))
    done.stdin.close()
    run.check('the lines after it', (done.stdout.read(), done.wait(timeout=20)), (PAIRS[50:], 0))


def over_a_stream(run):
    """A saved text of one part, and the digest that continues with the other."""
    for algorithm, expected in (('32', b'92f68bd9\n'), ('64', b'eab55659a496d78b\n')):
        saved = subprocess.run(run.command(f'save {algorithm} 1234'), input=b'some', capture_output=True)
        run.test([b'resume', algorithm.encode(), saved.stdout.strip()], b' bytes', expected, b'', 0)


def built(backend, workdir, is_of_ci):
    """The program built by this compiler. A build or a proof that fails ends the check."""
    flags, ending = ([], '') if backend == 'llvm' else (['--backend', backend], '.by-rattle')
    program = os.path.join(workdir, 'xxh-' + backend)
    # `rt ci` leaves the program that it proved and built by both.
    shutil.copy(f'{TOP}/crates/xxh/out/xxh{ending}' if is_of_ci else proved_program('xxh', *flags), program)
    return program


def over_all(program, title, workdir, report):
    run = Run(program, title)
    for test in TABLE:
        run.test(*test)
    over_hostile_ends(run, workdir)
    over_information(run)
    over_limited_file(run, workdir)
    over_small_disk(run, workdir)
    over_full_pipe(run, workdir)
    over_slow_pipe(run)
    over_a_stream(run)
    print(f'{title}: {run.count} checks, {run.failed} failed')
    report.count(run.count - run.failed, run.failed)


def main():
    parser = command.parser(__doc__)
    parser.add_argument('--of-ci', action='store_true', help='test the program that rt ci has built')
    parser.add_argument(
        'programs', nargs='*', metavar='PROGRAM', help='the programs to test, which rt builds by default'
    )
    given, report = parser.parse_args(), Report()
    with tempfile.TemporaryDirectory() as workdir:
        programs = [(os.path.abspath(program), program) for program in given.programs] or [
            (built(backend, workdir, given.of_ci), f'xxh as {backend} builds it') for backend in ('rattle', 'llvm')
        ]
        for program, title in programs:
            over_all(program, title, workdir, report)
    return report.end()
