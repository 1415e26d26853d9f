"""Runs `xxhsum` on many files, names, reads and arguments.

    checks/xxhsum-many PROGRAM.. [--only WORD]

A tree of 150,000 names, of which one directory has 120,000; names of every shape, as find and sort print them, as
Python reads them from an audit as JSON, and without those that patterns exclude, as find and Python's fnmatch match
them; an audit of 70,000 equal files; a list of names that comes in 150,000 reads; 130,000 arguments. All files are
empty, and the expected output is derived from the digest of no bytes. Wrong programs are planted, which must be
detected. The last line is "N passed, M failed". It takes some 20 seconds of processor time for each program, and no
space except that of the names."""
import contextlib
import fnmatch
import itertools
import json
import os
import random
import re
import subprocess
import tempfile

from checks.lib import command
from checks.lib.report import Fault, Report, check
from checks.lib.tools import write

from .runs import found, plant

# XXH64 of no bytes.
EMPTY = b'ef46db3751d8e999'
WIDE, FOLDERS, EACH = 120_000, 30, 1000
AUDITED = 70_000
READS = 150_000
ARGUMENTS = 130_000
SECONDS = 120
# Names that a program may take for options, for directories that it leaves out, or for the end of a name.
SHAPES = [
    '.a',
    '..a',
    '...',
    '....',
    '.git/config',
    '.hidden/inner',
    '..hidden/.inner',
    '-',
    '--',
    '-r',
    '-d/-inner',
    ' ',
    '  ',
    ' a',
    'a ',
    'a b',
    '*',
    '?',
    '[a]',
    '~',
    '$HOME',
    '{}',
    '\\n',
    'a\n',
    '\na',
    '\n\n',
    'a\r\n',
    'é',
    'e\u0301',
    '\u0080',
    '\u2028',
    '\ufeff',
    '\ufffd',
    '😀',
    '\U0010ffff',
]
# The longest name that a directory may have, in bytes.
LONGEST_NAME = 255
# Patterns of `--exclude` for these names: each byte that is special, quoted or not, and each place of a `*`.
PATTERNS = ['*', '?', '.*', '*.*', '..?*', '.hidden', '.inner', '*inner', 'inner*', 'i*n*r', 'n*', '*n', 'n?*n']
PATTERNS += [
    'a?b',
    'a*b',
    'a\\*b',
    'a\\?b',
    'a\\\\b',
    '\\a\\-\\b',
    '\\*',
    '\\',
    'a\\',
    'é',
    '??',
    '-*',
    '',
    'n' * 100 + '*' * 9,
]
PATTERNS += ['*n' * 9, '*\n*', '* *', '~', '**a**', 'config', '.git', 'shapes']
# Patterns and names that Python's fnmatch compares.
SEED, SAMPLES, LETTERS = 7, 300, ['a', 'b', '*', '?', '\\a', '\\*', '\\?', '\\\\']
# Programs that do one thing wrong with the real one, which is $REAL, and the test that must detect it.
PLANTED = {
    'hidden names left out': ('"$REAL" "$@" | grep -zv "/\\."', 'names of every shape'),
    'long names left out': ('"$REAL" "$@" | grep -zv "n\\{236\\}"', 'names of every shape'),
    'a pattern that begins at the second byte': (
        '[ "$3" = "*inner" ] && set -- -rz --exclude inner shapes; exec "$REAL" "$@"',
        'excluded names',
    ),
    'a star that is forgotten': (
        '[ "$3" = "i*n*r" ] && set -- -rz --exclude "i*nr" shapes; exec "$REAL" "$@"',
        'excluded names',
    ),
    'a control character in JSON': (
        '"$REAL" "$@" | case $* in *json*) sed "s/\\\\\\\\u0001/\\x01/" ;; *) cat ;; esac',
        'names of every shape as JSON',
    ),
    'a folder whose names end early': ('"$REAL" "$@" | head -n 532', 'a tree of many names'),
    'no memory for many files': ('echo "Error: Out of memory." >&2; exit 1', 'an audit of many equal files'),
    'a list that is read in part': ('head -c 100000 | "$REAL" "$@"', 'a list in many reads'),
    'arguments that are forgotten': ('for word; do last=$word; done; exec "$REAL" "$last"', 'many arguments'),
}


def make_empty(path):
    os.close(os.open(path, os.O_CREAT | os.O_EXCL | os.O_WRONLY, 0o644))


def tree_names():
    """The files of the tree, in order."""
    folders = {b'tree/wide': WIDE, **{b'tree/part-%02d' % number: EACH for number in range(FOLDERS)}}
    return [b'%s/%06d' % (folder, number) for folder in sorted(folders) for number in range(folders[folder])]


def make_tree(names):
    for name in names:
        if name.endswith(b'/000000'):
            os.makedirs(os.path.dirname(name))
        make_empty(name)


def lines(names, end=b'\n'):
    return b''.join(b'%s  %s%s' % (EMPTY, name, end) for name in names)


def check_output(result, out):
    """The run printed this and no message, and succeeded."""
    check(result[1] == b'', f'it reports {result[1][:300]!r}')
    check(result[2] == 0, f'its status is {result[2]}')
    check(result[0] == out, f'it prints {result[0].count(10)} lines, and {out.count(10)} others are expected')


def many_names(program, names):
    check_output(found(program, ['-r', 'tree'], seconds=SECONDS), lines(names))
    return f'{len(names):,} names'


def shaped_names():
    """Names of each shape, each character of one byte, and each length."""
    characters = [chr(code) for code in range(1, 128) if chr(code) not in './']
    around = [f'a{character}b' for character in characters]
    lengths = ['n' * count for count in range(2, LONGEST_NAME + 1)]
    return sorted({name.encode() for name in (*SHAPES, *characters, *around, *lengths)})


def shapes_of_names(program, _names):
    """The tree that `find` lists, in the order of `sort`. NULs end the lines, so no name is escaped."""
    built = [b'shapes/' + name for name in shaped_names()]
    for name in built if not os.path.exists('shapes') else ():
        os.makedirs(os.path.dirname(name), exist_ok=True)
        make_empty(name)
    listed = subprocess.run(
        'find shapes -type f -print0 | sort -z',
        shell=True,
        stdout=subprocess.PIPE,
        check=True,
        env={**os.environ, 'LC_ALL': 'C'},
    ).stdout
    check(listed == b''.join(name + b'\0' for name in sorted(built)), 'find lists other names')
    check_output(found(program, ['-rz', 'shapes'], seconds=SECONDS), lines(sorted(built), b'\0'))
    return f'{len(built):,} names'


def shapes_in_json(program, names):
    """An audit of names of every shape as JSON: Python's `json` reads each name."""
    shapes_of_names(program, names)
    built = sorted(b'shapes/' + name for name in shaped_names())
    write('list', found(program, ['-r', 'shapes'], seconds=SECONDS)[0])
    out, *rest = found(program, ['-r', '--audit', '--format=json', 'list', 'shapes'], seconds=SECONDS)
    check(rest == [b'', 0], f'it reports {rest[0][:300]!r}, and its status is {rest[1]}')
    digest = EMPTY.decode()
    expected = [{'name': name.decode(), 'state': 'same', 'listed': digest, 'actual': digest} for name in built]
    check(out.count(b'\n') == len(built), f'it prints {out.count(10)} lines for {len(built)} names')
    try:
        objects = [json.loads(line) for line in out.split(b'\n')[:-1]]
    except ValueError as error:
        raise Fault(f'a line is not JSON: {error}') from error
    check(objects == expected, 'the objects have other names')
    return f'{len(built):,} names'


def excluded_names(program, _names):
    """The tree without the names that each pattern matches, as `find` prunes it."""
    shapes_of_names(program, _names)
    for pattern in PATTERNS:
        listed = subprocess.run(
            ['find', 'shapes', '-mindepth', '1', '-name', pattern, '-prune', '-o', '-type', 'f', '-print0'],
            stdout=subprocess.PIPE,
            stderr=subprocess.DEVNULL,
            check=True,
            env={**os.environ, 'LC_ALL': 'C'},
        ).stdout
        result = found(program, ['-rz', '--exclude', pattern, 'shapes'], seconds=SECONDS)
        check_output(result, lines(sorted(listed.split(b'\0')[:-1]), b'\0'))
    return f'{len(PATTERNS)} patterns'


def python_pattern(pattern):
    """A pattern for fnmatch, in which a class of one byte quotes it."""
    return re.sub(r'\\(.)', r'[\1]', pattern).encode()


def sampled_patterns(program, _names):
    """All names of at most four bytes of an alphabet, without those that fnmatch matches, for patterns of a fixed
    seed."""
    names = [''.join(name) for count in range(1, 5) for name in itertools.product('ab*\\', repeat=count)]
    built = sorted(b'short/' + name.encode() for name in names)
    for name in built if not os.path.exists('short') else ():
        os.makedirs('short', exist_ok=True)
        make_empty(name)
    rng = random.Random(SEED)
    for _ in range(SAMPLES):
        pattern = ''.join(rng.choices(LETTERS, k=rng.randint(0, 6)))
        expected = [name for name in built if not fnmatch.fnmatchcase(name[6:], python_pattern(pattern))]
        check_output(found(program, ['-rz', f'--exclude={pattern}', 'short'], seconds=SECONDS), lines(expected, b'\0'))
    return f'{SAMPLES} patterns, {len(built)} names'


def audit_of_equal_files(program, names):
    chosen = names[:AUDITED]
    write('list', lines(chosen))
    counts = b'%d same, 0 changed, 0 moved, 0 copied, 0 new, 0 missing, 0 unreadable\n' % len(chosen)
    done = found(program, ['--audit', '--files0-from', 'list'], b'\0'.join(chosen), SECONDS)
    check_output(done, b''.join(b'%s: same\n' % name for name in chosen) + counts)
    return f'{len(chosen):,} files'


def many_reads(program, names):
    """A pipe in packet mode returns one write per read."""
    name = b'./' * 1500 + names[0]
    text = (name + b'\0') * (READS // len(name) + 1)
    ours, theirs = os.pipe2(os.O_DIRECT)
    with tempfile.TemporaryFile() as out, tempfile.TemporaryFile() as err:
        run = subprocess.Popen([program, '--files0-from', '-'], stdin=ours, stdout=out, stderr=err)
        os.close(ours)
        try:
            for at in range(len(text)):
                os.write(theirs, text[at : at + 1])
        except BrokenPipeError:
            pass
        os.close(theirs)
        status = run.wait(SECONDS)
        out.seek(0)
        err.seek(0)
        check_output((out.read(), err.read(), status), lines([name] * text.count(b'\0')))
    return f'{len(text):,} reads'


def many_arguments(program, _names):
    make_empty('e') if not os.path.exists('e') else None
    check_output(found(program, ['e'] * ARGUMENTS, seconds=SECONDS), lines([b'e'] * ARGUMENTS))
    return f'{ARGUMENTS:,} arguments'


CASES = {
    'a tree of many names': many_names,
    'names of every shape': shapes_of_names,
    'names of every shape as JSON': shapes_in_json,
    'excluded names': excluded_names,
    'excluded names of an alphabet': sampled_patterns,
    'an audit of many equal files': audit_of_equal_files,
    'a list in many reads': many_reads,
    'many arguments': many_arguments,
}


def is_detected(script, case, program, names):
    """A test fails with a planted program."""
    with tempfile.TemporaryDirectory() as workdir:
        plant(f'{workdir}/xxhsum', program, script)
        try:
            CASES[case](f'{workdir}/xxhsum', names)
        except (Fault, subprocess.TimeoutExpired):
            return 'detected'
    raise AssertionError('it is not detected')


def main():
    parser = command.parser(__doc__, 'rows')
    parser.add_argument('programs', nargs='+', help='the programs to test')
    given = parser.parse_args()
    programs = [os.path.abspath(program) for program in given.programs]
    report, names = Report(), tree_names()
    with tempfile.TemporaryDirectory() as workdir, contextlib.chdir(workdir):
        make_tree(names)
        for program in programs:
            for name, case in CASES.items():
                if given.only in name:
                    report.attempt(f'{os.path.basename(program)}, {name}', case, program, names)
        for title, planted in PLANTED.items() if not given.only else ():
            report.attempt(f'planted, {title}', is_detected, *planted, programs[0], names)
    return report.end()
