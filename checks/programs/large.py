"""Compares two `xxhsum` programs on inputs that are too long for a table of cases.

    checks/xxhsum-large ORIGINAL OURS [--lists N] [--files N] [--only WORD]

The inputs are lists of random lines, some of them damaged, for both programs to check; lists that one of them made,
for the other; the lines of checks/lines.json; names of each byte; many small files; and a long pipe. A file that
shrinks while it is read must give one line, and the output of ours for a long file on a terminal must be its
progress. The original is release 0.8.3, whose lines ours prints and reads. Each comparison is of standard output,
standard error and the status, byte for byte. The last line is "N passed, M failed"; the status is 1 if one failed.
It takes about a minute, and some 600 MB of disk."""
import contextlib
import os
import random
import re
import subprocess
import tempfile
import time

from checks.lib import command
from checks.lib.report import Fault, Report, check
from checks.lib.tools import TOP, ran, write

from . import messages
from .cases import FILES
from .runs import HASHES, found, is_utf8, marked
from .terminals import EMPTY_ROW, ONE_ROW, ROW_END, run

# One seed, so that each run draws the lists of the run before.
SEED = 20261124
SHAPES: list[list[str]] = [[], ['--tag'], ['--little-endian']]
CHECKED: list[list[str]] = [[], ['--strict'], ['--warn'], ['--quiet'], ['--status'], ['--little-endian']]
MIB, PIPE_GIB = 2**20, 5
# A line of a check about a name of the list.
MESSAGE = re.compile(rb"^stdin:\d+: Could not open or read '.*': .*$", re.M)


def same(programs, args, given=b''):
    """The result of both programs with these arguments, which must be the same: ours also escapes names in messages."""
    theirs, ours = (found(it, args, given) for it in programs)
    if (MESSAGE.sub(lambda line: marked(line[0]), theirs[0]), *theirs[1:]) != ours:
        raise Fault(f'{args!r} of {given[:300]!r}\n  theirs {theirs!r:.600}\n  ours   {ours!r:.600}')
    return theirs


# ---- lists


def printed(program, names):
    """Lines of these files in each form."""
    lines = []
    for algorithm in HASHES:
        for shape in SHAPES:
            lines += found(program, [algorithm, *shape, *names])[0].splitlines(keepends=True)
    return lines


def damaged(line, rng):
    """The line with a byte changed, removed or added, or truncated, or unchanged."""
    place = rng.randrange(len(line) + 1)
    byte = bytes([rng.choice(b' *()=\\\t\r0aFgxX_\xff') if rng.random() < 0.8 else rng.randrange(256)])
    how = rng.randrange(8)
    if how == 0:
        return line[:place] + byte + line[place + 1 :]
    if how == 1:
        return line[:place] + line[place + 1 :]
    if how == 2:
        return line[:place] + byte + line[place:]
    if how == 3:
        return line[:place]
    return line


def is_odd(text):
    """True if it could name standard input, or a file by invalid UTF-8: there the programs differ."""
    return not is_utf8(text) or b'stdin' in text


def random_lists(programs, count):
    rng = random.Random(SEED)
    # A damaged line can begin its name inside a character of several bytes, so names have none.
    lines = printed(programs[0], sorted(name for name in os.listdir('.') if name.isascii() and os.path.isfile(name)))
    tried = 0
    while tried < count:
        text = b''.join(damaged(rng.choice(lines), rng) for _ in range(rng.randrange(1, 9)))
        # Ours drops a carriage return at the end of a line.
        if is_odd(text) or b'\0' in text or b'\r\n' in text + b'\n':
            continue
        same(programs, ['-c', *rng.choice(CHECKED)], text)
        tried += 1
    return f'{count} lists'


def lists_of_each_other(programs):
    names = [name for name in os.listdir('.') if os.path.isfile(name)]
    count = 0
    for maker in programs:
        for algorithm in HASHES:
            for shape in SHAPES[:2]:
                out, err, status = same(programs, ['-c'], found(maker, [algorithm, *shape, *names])[0])
                check(
                    not status and out.count(b': OK\n') == len(names), f'{algorithm} {shape}: {out!r:.300} {err!r:.300}'
                )
                count += 1
    return f'{count} lists of {len(names)} files'


def lines_of_the_table(programs):
    """The lines of checks/lines.json, as parsed by ours."""
    done = ran([os.path.join(TOP, 'checks', 'xxhsum-lines'), programs[1]])
    check(not done.returncode, done.stdout[-2000:])
    return done.stdout.splitlines()[-1]


# ---- files


def names_of_each_byte(programs):
    bytes_of_names = [bytes([it]) for it in range(1, 128) if it != ord('/')] + ['\u00e9'.encode(), '\u20ac'.encode()]
    names = [b'n' + it + b'm' for it in bytes_of_names]
    for name in names:
        write(name, name)
    for args in ((), ('--tag',), ('-H3',)):
        same(programs, ['-c'], same(programs, [*args, *names])[0])
    return f'{len(names)} names'


def refused_names(programs):
    """Only ours refuses a name that is not UTF-8, with a line and status 1."""
    for byte in range(128, 256):
        name = b'n' + bytes([byte])
        write(name, b'some bytes')
        _, err, status = found(programs[1], [name])
        is_refused = status == 1 and messages.unopened(name, messages.NOT_UTF8) in err
        check(is_refused, f'{name!r}: {status} {err!r}')
        os.remove(name)
    return '128 names'


def small_files(programs, count):
    for number in range(count):
        write(f'many/{number}', number.to_bytes(4, 'little') * 1024)
    for start in range(0, count, 10000):
        same(programs, ['-H2', *(f'many/{it}' for it in range(start, min(start + 10000, count)))])
    return f'{count} files of 4 KiB'


def long_pipe(programs):
    block = random.Random(SEED).randbytes(MIB)
    lines = []
    for program in programs:
        with subprocess.Popen(
            [program, '-H2', '-'], stdin=subprocess.PIPE, stdout=subprocess.PIPE, stderr=subprocess.DEVNULL
        ) as done:
            for _ in range(1024 * PIPE_GIB):
                done.stdin.write(block)
            done.stdin.close()
            lines.append(done.stdout.read())
    check(lines[0] == lines[1] != b'', repr(lines))
    return f'{PIPE_GIB} GiB'


def shrinking_file(programs):
    """The file is truncated while it is read: the digest is that of the bytes read, and the run succeeds."""
    for _ in range(5):
        with open('shrinks', 'wb') as file:
            file.truncate(1024 * MIB)
        with subprocess.Popen([programs[1], 'shrinks'], stdout=subprocess.PIPE, stderr=subprocess.DEVNULL) as done:
            time.sleep(0.05)
            os.truncate('shrinks', 4096)
            out = done.stdout.read()
        is_one_line = out.endswith(b'  shrinks\n') and out.count(b'\n') == 1
        check(done.returncode == 0 and is_one_line, f'{done.returncode} {out!r}')
    os.remove('shrinks')
    return '5 times'


# ---- terminals


def progress(programs):
    """Ours shows each 64 MiB of a file or of standard input, and clears the line; with -q or --status, for a short
    file, and if standard error is no terminal it shows nothing. Rates and times are not compared."""
    for name, length in (('long', 200 * MIB), ('short', 64 * MIB - 1)):
        with open(name, 'wb') as file:
            file.truncate(length)
    write('list', found(programs[0], ['long'])[0])
    shown = b''.join(EMPTY_ROW + ONE_ROW + b'%d MiB' % count + ROW_END for count in (64, 128, 192)) + EMPTY_ROW
    tests = [
        (['long'], shown),
        (['short', 'long'], shown),
        (['-c', 'list'], shown),
        (['-'], shown),
        (['short'], b''),
        (['-q', 'long'], b''),
        (['--status', 'long'], b''),
        (['-c', '-q', 'list'], b''),
        (['-q', '-'], b''),
    ]
    for args, expected in tests:
        (out, _, status), (ours, sent, our_status) = (run(program, args, given='long') for program in programs)
        sent = re.sub(rb', \d+ MiB/s(, \d+ s left)?', b'', sent)
        check((ours, sent, our_status) == (out, expected, status), f'{args}: {ours!r:.300} {sent!r:.300} {our_status}')
        same(programs, args[:-1] + ['long' if args[-1] == '-' else args[-1]])
    return f'{len(tests)} commands'


def main():
    parser = command.parser(__doc__, 'parts')
    parser.add_argument('programs', nargs=2, metavar='PROGRAM', help='the original, and ours')
    parser.add_argument('--lists', type=int, default=10000, help='random lists')
    parser.add_argument('--files', type=int, default=100000, help='small files')
    given = parser.parse_args()
    parts = {
        'lists that one makes and the other checks': (lists_of_each_other,),
        'lists with damaged lines': (random_lists, given.lists),
        'the table of lines': (lines_of_the_table,),
        'names of each byte': (names_of_each_byte,),
        'names that are not UTF-8': (refused_names,),
        'many small files': (small_files, given.files),
        'a long pipe': (long_pipe,),
        'a file that shrinks': (shrinking_file,),
        'progress on a terminal': (progress,),
    }
    report = Report()
    with tempfile.TemporaryDirectory() as workdir:
        # A program's name is in its lines, so both have the same one.
        programs = [f'{workdir}/{folder}/xxhsum' for folder in ('theirs', 'ours')]
        for link, program in zip(programs, given.programs):
            os.mkdir(os.path.dirname(link))
            os.symlink(os.path.abspath(program), link)
        for name, (part, *more) in parts.items():
            if given.only in name:
                os.mkdir(f'{workdir}/{name}')
                with contextlib.chdir(f'{workdir}/{name}'):
                    write_files()
                    report.attempt(name, part, programs, *more)
    return report.end()


def write_files():
    """Writes the files of the table that a list can name."""
    for file_name, text in FILES.items():
        file_name = os.fsencode(file_name)
        # No list can contain a name with a newline, and one with a hyphen in front would be an option.
        if not is_odd(file_name) and not set(b'/\n\r') & set(file_name) and file_name[:1] != b'-':
            write(file_name, text)
