"""The cases of checks/xxhsum: the arguments, the files in the working directory, and standard input.

The originals define what is correct, so only a case in which ours intentionally differs has an expected result here;
docs/XXHSUM.md has the reason of each. The digests in lists are those of the files below, as the originals printed
them."""
import os
import shlex
from typing import NamedTuple, Optional

from . import messages
from .runs import escaped, json_object, marked

# The parts of two runs that must be equal. Help and version have their maker's name, so their text is not compared.
ALL = ('out', 'err', 'status')
NO_ERROR_TEXT = ('out', 'status')


class Case(NamedTuple):
    name: str
    args: tuple = ()
    given: bytes = b''
    files: dict = {}
    compared: tuple = ALL
    # The name by which the program is called.
    called: str = 'xxhsum'
    # A line of sh to run instead of the arguments. It finds the program as "$X".
    shell: str = ''
    # The expected result of ours if it intentionally differs from both originals, which are not run then.
    expected: Optional[dict] = None
    # If the originals only print `Wrong parameters`: the argument that ours names after that, by default the first.
    wrong: str = ''


def one_line(text: bytes) -> bytes:
    """A reported text, as one line: as names are in lists, with a backslash before it if it needs one."""
    return marked(text.removesuffix(b'\n')) + b'\n'


def fails(message, out=b''):
    """Ours reports these lines, and ends with 1."""
    return ours(out, b''.join(map(one_line, message)), 1)


def ours(out, err=b'', status=0):
    return {'out': out, 'err': err, 'status': status}


def refused(status=1):
    """Ours prints nothing and ends with this status."""
    return {'out': b'', 'status': status}


HELLO = b'hello'
X32, X64 = b'fb0077f9', b'26c7827d889f6da3'
X3, X128 = b'9555e8555c62dcfd', b'b5e9c1ad071b3e7fc779cfaa5e523818'
X32_LE, X64_LE = b'f97700fb', b'a36d9f887d82c726'
X3_LE, X128_LE = b'fddc625c55e85595', b'1838525eaacf79c77f3e1b07adc1e9b5'
# XXH64 of no bytes, and one that differs from that of `hello` by one digit.
EMPTY, WRONG = b'ef46db3751d8e999', b'26c7827d889f6da4'
GOOD = X64 + b'  a\n'
GOOD_OUT = b'a: OK\n'


# The system's messages for reads.
IS_FOLDER, IS_CLOSED = 'Is a directory', 'Bad file descriptor'


def unread_input(why):
    return fails([messages.unread('stdin', why, end='.')])


def no_stdin(listed, number):
    """The message for the file stdin, which doesn't exist, as for each missing file."""
    return messages.unread_listed(listed, number, 'stdin')


# A file that opens, and whose reads all fail.
FAILING = '/proc/self/mem'
# The message if `-` would be left unread.
BESIDE_NAMES = b"Error: '-' is standard input, which can't be read with files; for a file of that name use './-'."
NOT_READ = messages.unread(FAILING)
GONE = messages.unopened('gone')
IMPROPER = fails([messages.in_line('lines', 2)])


def one_unread(out):
    """A list prints this, and one of its files could not be read."""
    return ours(out + messages.counts(unread=1), status=1)


def audited(*lines, err=b'', end=b'\n'):
    """An audit prints these lines, and how many there are of each class. It ends with 0 if no file has changed. The
    first `: ` of a line ends its name."""
    args = [line.split(b': ', 1)[1] for line in lines]
    numbers = {
        word: sum(text.startswith({b'copied': b'copy'}.get(word, word)) for text in args)
        for word in (b'same', b'changed', b'moved', b'copied', b'new', b'missing', b'unreadable')
    }
    counts = b', '.join(b'%d %s' % (number, word) for word, number in numbers.items())
    is_well = not err and numbers[b'same'] == len(lines)
    return ours(b''.join(line + end for line in (*lines, counts)), err, 0 if is_well else 1)


def gen(count):
    """Bytes that repeat after 251."""
    return bytes(i * 7 % 251 for i in range(count))


# Lengths at which some hash takes another path, or a buffer is full.
LENGTHS = (
    1,
    3,
    4,
    8,
    9,
    15,
    16,
    17,
    31,
    32,
    33,
    63,
    64,
    65,
    128,
    129,
    240,
    241,
    255,
    256,
    257,
    511,
    512,
    513,
    1023,
    1024,
    1025,
    1088,
    4095,
    4096,
    4097,
    65535,
    65536,
    65537,
    131071,
    131072,
    131073,
    262144,
    300001,
)
SIZED = {f'length-{count:06}': gen(count) for count in LENGTHS}

# The files of every case, besides the folder d and the links of `lay_out` in checks/xxhsum.
FILES = {
    'a': HELLO,
    'b c': b'world',
    'e': b'',
    'back\\slash': HELLO,
    'line\nfeed': HELLO,
    'return\r': HELLO,
    b'\xff\xfe': HELLO,
    'é': HELLO,
    '(p)': HELLO,
    '*star': HELLO,
    ' space': HELLO,
    '-x': HELLO,
    'n' * 255: HELLO,
    'd/inner': HELLO,
    'good': GOOD,
    'wrong': WRONG + b'  a\n',
    'junk': b'junk\n',
    'empty': b'',
}


def names():
    """Files by their names in the arguments."""
    return [
        Case('one file', ('a',)),
        Case('three files, one with a space', ('a', 'b c', 'e')),
        Case('an empty file', ('e',)),
        Case('one file twice', ('a', 'a')),
        Case('paths with folders', ('./a', 'd/inner', 'd/../a', './/a')),
        Case('a missing file', ('gone',)),
        Case('a missing file among others', ('a', 'gone', 'e')),
        Case('missing files alone', ('gone', 'away')),
        Case('a missing folder', ('gone/a',)),
        Case('a folder', ('d',)),
        Case('a folder with a slash', ('d/',)),
        Case('the folder itself, and the root', ('.', '..', '/')),
        Case('a folder among others', ('d', 'a', 'd')),
        Case('links: to a file, to a folder, to nothing', ('link', 'linked-folder', 'broken')),
        Case('a link to itself', ('loop',)),
        Case('a file as a folder', ('a/b', 'a/')),
        Case('no name at all', ('',)),
        Case('no name among others', ('a', '', 'e')),
        Case('a name longer than the system allows', ('x' * 300,)),
        Case('a path longer than the system allows', ('x/' * 3000,)),
        Case('a path of just the longest length', ('./' * 2046 + 'a',)),
        Case('a path one byte too long', ('./' * 2047 + 'ab',)),
        Case('a name of 255 bytes', ('n' * 255,)),
        Case('a backslash in a name', ('back\\slash',)),
        Case('a line feed in a name', ('line\nfeed',)),
        Case('a carriage return in a name', ('return\r',)),
        Case('a space first in a name', (' space',)),
        Case('brackets and a star in names', ('(p)', '*star')),
        Case(
            'a name that is not UTF-8',
            (b'\xff\xfe', 'a'),
            expected=ours(X64 + b'  a\n', messages.unopened(b'\xff\xfe', messages.NOT_UTF8), 1),
        ),
        Case('a name beyond ASCII', ('é',)),
        Case('devices', ('/dev/null', '/proc/self/gone')),
        Case('a file named stdin', ('stdin',), given=b'world', files={'stdin': HELLO}),
        Case('no file named stdin', ('stdin',), given=b'world'),
        Case('a read that fails', (FAILING,), expected=ours(b'', NOT_READ, 1)),
        Case(
            'reads that fail, among others',
            ('a', FAILING, FAILING, 'gone', 'a'),
            expected=ours(GOOD * 2, NOT_READ * 2 + GONE, 1),
        ),
        Case('2,000 names', ('a', 'e') * 1000),
        Case('100,000 short names', ('a',) * 100000),
        Case('12,000 arguments', ('-q',) * 11998 + ('gone', 'a')),
        Case('words of 100,000 bytes', ('y' * 100000, 'a', 'z/' * 50000)),
        Case('500 long names', ('n' * 255, 'x' * 255) * 250),
        Case('spaces and tabs at both ends of names', (' both ', 'a ', ' a', 'a\t'), files={' both ': HELLO}),
        Case('a pipe with a name', shell='mkfifo p; printf hello >p & "$X" p'),
        Case('the device of standard input', shell='"$X" /dev/stdin <a'),
    ]


def algorithms():
    """The digest that is computed."""
    cases = [Case(f'-H{number}', (f'-H{number}', 'a', 'e')) for number in ('0', '1', '2', '3', '32', '64', '128')]
    cases += [Case(f'every length, -H{number}', (f'-H{number}', *SIZED), files=SIZED) for number in '0123']
    cases += [
        Case(f'-H{number}, a number that is none', (f'-H{number}', 'a'))
        for number in ('4', '5', '31', '129', 'x', '-1', '+1', ' 1', '0x1', '1K', '4294967289', '4194303K', '4095M')
    ]
    cases += [
        Case(f'-H{number}, a number too large', (f'-H{number}', 'a'))
        for number in ('99999999999', '4294967290', '0004294967290', '4194304K', '4096M', '18446744073709551616')
    ]
    cases += [
        Case(f'-H{number}, a number with more', (f'-H{number}', 'a'))
        for number in ('', '064', '0K', '0Ki', '0KiB', '0KB', '0MiB', '0iB', '0BK', '2q', '2H0', '0qw')
    ]
    return cases + [
        Case('the last -H counts', ('-H0', '-H2', 'a')),
        Case('the last -H counts in one word', ('-H0H1', 'a')),
        Case('-H and a number apart', ('-H', '0', 'a')),
        Case('an unknown kind before the version', ('-H9', '-V')),
    ]


def lines():
    """The form of a printed line."""
    cases = [Case(f'a tagged line, -H{number}', ('--tag', f'-H{number}', 'a', 'e')) for number in '0123']
    cases += [Case(f'little endian, -H{number}', ('--little-endian', f'-H{number}', 'a', 'e')) for number in '0123']
    cases += [
        Case(f'little endian and tagged, -H{number}', ('--tag', '--little-endian', f'-H{number}', 'a'))
        for number in '0123'
    ]
    return cases + [
        Case('tagged lines of odd names', ('--tag', 'line\nfeed', '(p)', 'back\\slash', 'gone', 'd')),
        Case('XXH3 of odd names', ('-H3', 'line\nfeed', '(p)', ' space')),
    ]


def options():
    """The arguments before the names."""
    bad = (
        '-x',
        '-l',
        '-t',
        '-v',
        '-Q',
        '-q-',
        '-q,',
        '-c=1',
        '-é',
        '--',
        '--nope',
        '--tag=1',
        '--Tag',
        '--ta',
        '--warning',
        '--checks',
        '--chec',
        '--little',
        '--ignore-missing',
        '--ignore',
        '--zer',
        '--binary',
        '---',
        '-- ',
        '--q',
    )
    cases = [Case(f'the word {word}', (word, 'a')) for word in bad]
    silent = ('-q', '--quiet', '-w', '--warn', '--status', '--strict', '-i5', '-i', '-B64KiB', '-B', '-i5B5', '-i3H0')
    cases += [Case(f'the word {word}, which changes no digest', (word, 'a', 'gone')) for word in silent]
    # The originals write these to standard error.
    informing = ('-V', '--version', '-h', '--help', '-qV', '-Vx', '-hx', '-cV', '-H0h')
    cases += [
        Case(
            f'the word {word}, which only tells',
            (word,),
            shell=f'"$X" {word} a | wc -l | grep -cvx 0',
            expected=ours(b'1\n'),
        )
        for word in informing
    ]
    cases += [
        Case(
            f'the word {word} to a full disk', shell=f'"$X" {word} >/dev/full', expected=fails([messages.WRITE_FAILED])
        )
        for word in ('-V', '--help')
    ]
    return cases + [
        Case('options after a name are names', ('a', '-H0', '--tag')),
        Case('names after --', ('--', '-x', '-H0')),
        Case('-- and nothing more', ('--',), given=HELLO),
        Case('names after --, one of them --', ('--', 'a', '--')),
        Case('options before --', ('-H0', '--tag', '--', '-x')),
        Case('letters together', ('-qH0w', 'a')),
        Case('quiet twice', ('-q', '--quiet', 'd', 'a')),
        Case('a bad option before the version', ('-Z', '-V')),
        Case('a bad option behind good ones', ('-q', '--tag', '-H0x', 'a'), wrong='-H0x'),
        Case('a bad option with a line feed', ('-x\na: OK', 'a')),
        Case('the version before a bad option', shell='"$X" -V -Z | wc -l', expected=ours(b'1\n')),
        Case('a number too large before a bad option', ('-i99999999999', '-Z')),
        Case('a bad option after a file', ('a', '--nope')),
        Case('an option that is not UTF-8', (b'-\xff', 'a')),
        *(
            Case(f'the benchmark, {word}', (word, 'a'), expected=fails([b'xxhsum: this xxhsum has no benchmark']))
            for word in ('-b', '-b3', '--bench-all', '--benchmark-all')
        ),
    ]


def input_alone():
    """Standard input instead of names."""
    return [
        Case('input', given=HELLO),
        Case('input with no bytes'),
        Case('input by -', ('-',), given=HELLO),
        Case('input by - twice', ('-', '-'), given=HELLO),
        Case('options after -', ('-', '-H0', '--tag'), given=HELLO),
        # The originals ignore standard input if there is a name before it, or open a file of the name `-`: ours never
        # leaves requested input unread, and reports that.
        *(
            Case(name, args, given=b'world', files={'-': HELLO}, expected=fails([BESIDE_NAMES]))
            for name, args in (
                ('a name after -', ('-', 'a')),
                ('- after a name', ('a', '-')),
                ('- after --', ('--', '-')),
                ('- between names', ('-H0', 'a', '-', 'a')),
                ('names after - and --', ('-', '--', 'a')),
                ('- before a list', ('-c', '-', 'good')),
                ('- after a list', ('-c', 'good', '-')),
                ('- before a list of names', ('--files-from', '-', 'a')),
                ('- among names of an audit', ('--audit', 'good', '-')),
                ('- before an audit', ('--audit', '-', 'good')),
            )
        ),
        Case('a file of the name -', ('./-',), given=b'world', files={'-': HELLO}),
        Case('input, tagged', ('--tag',), given=HELLO),
        Case('input, little endian', ('--little-endian', '-H0'), given=HELLO),
        Case('input, quiet', ('-q',), given=HELLO),
        Case('input, XXH3', ('-H3',), given=HELLO),
        Case('a megabyte of input', ('-H2',), given=b'0123456789abcdef' * 65536),
        Case('input that comes in pieces', shell='(printf hel; sleep 0.1; printf lo) | "$X" -H0'),
        Case('a folder as input', shell='"$X" <d', expected=unread_input(IS_FOLDER)),
        Case('closed input', shell='"$X" <&-', expected=unread_input(IS_CLOSED)),
        Case('a file while input is closed', shell='"$X" a <&-'),
        Case('a folder as input, and a file', shell='"$X" a <d'),
    ]


def program_names():
    """The program by its other names."""
    names = (
        'xxh32sum',
        'xxh64sum',
        'xxh128sum',
        'xxh3sum',
        'my-xxh32sum',
        'xxh32sum.real',
        'XXH32SUM',
        'xxh128sumxxh32sum',
    )
    return [Case(f'called {name}', ('a', 'gone'), called=name) for name in names] + [
        Case('called xxh32sum, another kind', ('-H2', 'a'), called='xxh32sum'),
        Case('called xxh32sum, a list', ('-c', 'good', 'junk'), called='xxh32sum'),
        Case('called xxh128sum, a bad option', ('--nope',), called='xxh128sum'),
        Case(
            'called by a name with a line feed',
            ('-b',),
            called='a\nxxhsum',
            expected=fails([b'a\nxxhsum: this xxhsum has no benchmark']),
        ),
        Case('called xxh128sum, tagged', ('--tag', 'a'), called='xxh128sum'),
    ]


def of_list(name, text, *options, given=b'', expected=None):
    """A case that checks the list L with this text."""
    return Case(name, (*(options or ('-c',)), 'L'), given=given, files={'L': text}, expected=expected)


def verdicts():
    """The messages about a list, by its options."""
    mixed = b'junk\n' + WRONG + b'  a\n' + X64 + b'  gone\n' + GOOD
    two_of_each = b'x\ny\n' + (WRONG + b'  a\n') * 2 + X64 + b'  gone\n' + X64 + b'  away\n' + GOOD * 2
    cases = []
    for args in (
        ('-c',),
        ('-cw',),
        ('-cq',),
        ('-c', '--status'),
        ('-c', '--strict'),
        ('-cqw', '--strict'),
        ('-c', '--status', '-w', '--strict'),
        ('-c', '--little-endian'),
        ('-H0', '--tag', '-c'),
    ):
        title = ' '.join(args)
        cases += [
            of_list(f'a good list, {title}', GOOD + X32 + b'  a\n', *args),
            of_list(f'a list of all kinds, {title}', mixed, *args),
        ]
    return cases + [
        of_list('two of each', two_of_each, '-cw'),
        of_list('--check in full', GOOD, '--check'),
        of_list('one wrong line', WRONG + b'  a\n'),
        of_list('two wrong lines', (WRONG + b'  a\n') * 2),
        of_list('a missing file alone', X64 + b'  gone\n'),
        of_list('a missing file, quiet', X64 + b'  gone\n', '-cq'),
        of_list('a missing file, status', X64 + b'  gone\n', '-c', '--status'),
        of_list(
            'a folder in a list',
            GOOD + X64 + b'  d\n' + GOOD,
            expected=one_unread(b'a: OK\n' + messages.unread_listed('L', 2, 'd', IS_FOLDER) + GOOD_OUT),
        ),
        of_list('a folder in a list, status', X64 + b'  d\n' + GOOD, '-c', '--status', expected=refused()),
        of_list(
            'a read that fails in a list',
            X64 + b'  ' + FAILING.encode() + b'\n' + GOOD,
            expected=one_unread(messages.unread_listed('L', 1, FAILING, messages.IO_ERROR) + GOOD_OUT),
        ),
        of_list('an empty list', b''),
        of_list('an empty list, status', b'', '-c', '--status'),
        of_list('blank lines alone', b'\n\n'),
        of_list('improper lines alone', b'x\ny\n', '-cw'),
        of_list('improper lines alone, status', b'x\ny\n', '-c', '--status'),
        of_list('a blank line among others', b'\n' + GOOD, '-cw', '--strict'),
        of_list('a comment', b'# made today\n' + GOOD, '-cw'),
        of_list('comments alone', b'# made today\n#\n', '-cw'),
        of_list(
            'a comment behind a space, and one within a line', b' # a\n' + GOOD[:-1] + b' # made today\n' + GOOD, '-cw'
        ),
    ]


def plain_lines():
    """Lines of a list in xxhsum's default form, and similar ones."""
    return [
        of_list('three lengths of digits', X32 + b'  a\n' + GOOD + X128 + b'  a\n'),
        of_list('no line feed at the end', X64 + b'  a'),
        # The originals parse a carriage return as a part of the line.
        of_list(
            'carriage returns',
            X64 + b'  a\r\n' + EMPTY + b'  e\r\n# no\r\n\r\n' + X64 + b'  a\r',
            '-cw',
            expected=ours(b'a: OK\ne: OK\na: OK\n' + messages.counts(improper=1), messages.in_line('L', 4)),
        ),
        of_list('two carriage returns', X64 + b'  return\r\r\n', '-cw', expected=ours(one_line(b'return\r: OK'))),
        of_list('capital digits', X64.upper() + b'  a\n' + X64[:8].upper() + X64[8:] + b'  a\n'),
        of_list('a star, a letter, a NUL before the name', X64 + b' *a\n' + X64 + b' xa\n' + X64 + b' \0a\n', '-cw'),
        of_list('one space before the name', X64 + b' a\n', '-cw'),
        of_list('three spaces before the name', X64 + b'   a\n' + X64 + b'   space\n', '-cw'),
        of_list('no name', X64 + b'\n' + X64 + b' \n' + X64 + b'  \n', '-cw'),
        of_list('a tab in place of a space', X64 + b'\ta\n' + X64 + b' \ta\n', '-cw'),
        of_list('a space or a tab first', b' ' + GOOD + b'\t' + GOOD, '-cw'),
        of_list(
            'digits of other lengths', X64[1:] + b'  a\n' + X64 + b'0  a\n' + X32 + b'0  a\n' + X128 + b'00  a\n', '-cw'
        ),
        of_list('no digits', b'  a\n   a\n', '-cw'),
        of_list(
            'letters that are no digits', b'g' + X64[1:] + b'  a\n' + X64[:-1] + b'g  a\n' + b':' + GOOD[1:], '-cw'
        ),
        of_list('digits of another kind', X3 + b'  a\n' + X64_LE + b'  a\n', '-cw'),
        of_list(
            'little endian digits',
            X64_LE + b'  a\n' + X32_LE + b'  a\n' + X128_LE + b'  a\n' + GOOD,
            '-c',
            '--little-endian',
        ),
        of_list('a NUL after the digits', X64 + b'\0  a\n', '-cw'),
        of_list('a NUL in the name', X64 + b'  a\0b\n' + GOOD, '-cw'),
        of_list(
            'odd names',
            b''.join(
                X64 + b'  ' + name + b'\n'
                for name in (
                    b'back\\slash',
                    b'(p)',
                    b'*star',
                    b'-x',
                    b'b c',
                    b'link',
                    b'linked-folder/inner',
                    b'broken',
                )
            ),
        ),
        of_list('a bracket after one space', X64 + b' (p)\n' + X64 + b' (a) = ' + X64 + b'\n', '-cw'),
        of_list('a bracket after two spaces', X64 + b'  (p)\n', '-cw'),
        of_list(
            'a name of 255 bytes, and one that is too long',
            X64 + b'  ' + b'n' * 255 + b'\n' + X64 + b'  ' + b'x' * 5000 + b'\n',
        ),
        of_list('the prefix of later versions', b'XXH3_' + X3 + b'  a\n' + b'xxh3_' + X3 + b'  a\n', '-cw'),
        of_list('a byte order mark', b'\xef\xbb\xbf' + GOOD, '-cw'),
        of_list('a thousand lines', GOOD * 1000),
    ]


def line_of(count, end=b'\n'):
    """A line of this many bytes, with digits and a name that no file has."""
    return X64 + b'  ' + b'x' * (count - len(X64) - 2) + end


def not_opened(count):
    """The message for the file of line 2, whose name has this many bytes."""
    return messages.unread_listed('L', 2, b'x' * count, 'File name too long')


def too_long(line):
    return messages.in_line('L', line, messages.TOO_LONG)


def over_long(*lines, out=GOOD_OUT * 2):
    """The messages for a list with lines of these numbers longer than 32,767 bytes."""
    return {
        'out': out and out + messages.counts(improper=len(lines)),
        'status': 1,
        'err': b''.join(too_long(line) for line in lines),
    }


def long_lines():
    """Lists with lines about as long as the maximum. At a longer one the originals end; ours continues after it."""
    inside = b'x' * 70000 + b'\r' + X64 + b'  a\0' + X64 + b'  a'
    return [
        of_list('a line of 32766 bytes', line_of(32766) + GOOD),
        # The limit of the originals for a line that ends with a newline is one byte less.
        of_list(
            'a line of 32767 bytes',
            GOOD + line_of(32767) + GOOD,
            expected=one_unread(GOOD_OUT + not_opened(32749) + GOOD_OUT),
        ),
        of_list('a line of 32768 bytes', GOOD + line_of(32768) + GOOD, expected=over_long(2)),
        of_list('a line of 100000 bytes', GOOD + line_of(100000) + GOOD, '-cw', expected=over_long(2)),
        of_list('a line of 40000 bytes, status', GOOD + b'x' * 40000 + b'\n' + GOOD, '-c', '--status'),
        of_list('a last line of 32766 bytes', GOOD + line_of(32766, b'')),
        of_list('a last line of 32767 bytes', GOOD + line_of(32767, b'')),
        of_list('a last line of 32768 bytes', GOOD * 2 + line_of(32768, b''), expected=over_long(3)),
        of_list('a last line of 100000 bytes', GOOD * 2 + line_of(100000, b''), expected=over_long(3)),
        of_list(
            'lines that fill the buffer',
            b''.join(GOOD + line_of(count) for count in (65516, 65535, 65536, 131072)) + GOOD,
            expected=over_long(2, 4, 6, 8, out=GOOD_OUT * 5),
        ),
        of_list(
            'a long line with a NUL before its end',
            GOOD + X64 + b'  a\0' + b'x' * 32748 + b'\n' + GOOD,
            expected=over_long(2),
        ),
        of_list(
            'a long line with a carriage return at its end',
            GOOD + line_of(32767, b'\r\n') + GOOD,
            expected=over_long(2),
        ),
        of_list(
            'a line of 32766 bytes and a carriage return',
            GOOD + line_of(32766, b'\r\n') + GOOD,
            expected=one_unread(GOOD_OUT + not_opened(32748) + GOOD_OUT),
        ),
        of_list('lines within a long one', GOOD + inside + b'\n' + GOOD, expected=over_long(2)),
        of_list('lines within a long last one', GOOD * 2 + inside, expected=over_long(3)),
        of_list('a long comment', GOOD + b'#' + b'x' * 32767 + b'\n' + GOOD, expected=over_long(2)),
        of_list('a comment of 32767 bytes', b'#' + b'x' * 32766 + b'\n' + GOOD, expected=ours(GOOD_OUT)),
        of_list(
            'two long lines, strict',
            GOOD + line_of(40000) * 2 + b'junk\n' + GOOD,
            '-cw',
            '--strict',
            expected=fails(
                [too_long(2), too_long(3), messages.in_line('L', 4)], GOOD_OUT * 2 + messages.counts(improper=3)
            ),
        ),
        of_list(
            'long lines alone',
            line_of(40000) * 2,
            expected=fails([too_long(1), too_long(2), messages.no_proper_line('L')]),
        ),
    ]


def tagged_lines():
    """Lines of a list in the form of --tag, and similar ones."""
    tags = ((b'XXH32', X32), (b'XXH64', X64), (b'XXH128', X128), (b'XXH3', X3))
    turned = ((b'XXH32_LE', X32_LE), (b'XXH64_LE', X64_LE), (b'XXH128_LE', X128_LE), (b'XXH3_LE', X3_LE))

    def tagged(*cases):
        return b''.join(tag + b' (a) = ' + digits + b'\n' for tag, digits in cases)

    return [
        of_list('tagged lines', tagged(*tags)),
        of_list('tagged lines, turned', tagged(*turned)),
        of_list('tagged lines, --little-endian', tagged(*tags, *turned), '-c', '--little-endian'),
        of_list('wrong tagged lines', tagged((b'XXH64', X64_LE), (b'XXH3', X64), (b'XXH3_LE', X3), (b'XXH64', X3))),
        of_list(
            'tags with digits of another length',
            tagged((b'XXH32', X64), (b'XXH64', X32), (b'XXH128', X64), (b'XXH3', X128)),
            '-cw',
        ),
        of_list(
            'other tags', tagged((b'FOO', X64), (b'FOO', X32), (b'xXXH3', X64), (b'XXH', X64), (b'xxh3', X64)), '-cw'
        ),
        of_list(
            'tags that go on', tagged((b'XXH3x', X3), (b'XXH32x', X32), (b'XXH128x', X128), (b'x_LEx', X64_LE)), '-cw'
        ),
        of_list(
            'tags whose _LE stands elsewhere', tagged((b'_LEXXH32', X64_LE), (b'XXH32_L', X32), (b'XXH64__LE', X64_LE))
        ),
        of_list('capital digits after a tag', tagged((b'XXH64', X64.upper()), (b'XXH3', X3.upper()))),
        of_list(
            'spaces elsewhere',
            b''.join(
                line % X64
                for line in (
                    b'XXH64  (a) = %s\n',
                    b'XXH64 (a)  = %s\n',
                    b'XXH64 (a)= %s\n',
                    b'XXH64 (a) =%s\n',
                    b'XXH64(a) = %s\n',
                    b'XXH64 (a) = %s \n',
                    b'XXH64 (a) =  %s\n',
                    b' XXH64 (a) = %s\n',
                )
            ),
            '-cw',
        ),
        of_list(
            'names with brackets and spaces',
            b''.join(
                line % X64
                for line in (
                    b'XXH64 ((p)) = %s\n',
                    b'XXH64 (b c) = %s\n',
                    b'XXH64 () = %s\n',
                    b'XXH64 (a) (b) = %s\n',
                    b'XXH64 (a) = b) = %s\n',
                )
            ),
        ),
        of_list(
            'tagged lines cut short',
            b'X (\nX ()\nX () =\nX () = \n (a) = %s\n(a) = %s\nXXH64 (a = %s\n' % (X64, X64, X64),
            '-cw',
        ),
        of_list(
            'tagged lines with carriage returns', b'XXH64 (a) = ' + X64 + b'\r\n', '-cw', expected=ours(b'a: OK\n')
        ),
        of_list('a tagged line and no line feed', b'XXH64 (a) = ' + X64),
        of_list('both shapes', tagged(*tags) + GOOD),
    ]


def missing_files():
    """--ignore-missing, which 0.8.1 lacks. For 0.8.3 a file that can't be opened is missing, whatever the reason."""
    gone, missing = X64 + b'  gone\n', ('-c', '--ignore-missing')
    return [
        of_list('a missing file is ignored', gone + GOOD + gone, *missing),
        of_list('a missing file is ignored, --ignore-missing first', gone + GOOD, '--ignore-missing', '-c'),
        of_list('a missing file is ignored, beside a wrong line', gone + WRONG + b'  a\n' + GOOD, *missing),
        of_list(
            'a missing file is ignored, beside an improper line', b'junk\n' + gone + GOOD, *missing, '-w', '--strict'
        ),
        of_list('a missing file is ignored, quiet', gone + GOOD, *missing, '-q'),
        of_list('a missing file is ignored, status', gone + GOOD, *missing, '--status'),
        of_list('a broken link is ignored', X64 + b'  broken\n' + GOOD, *missing),
        of_list('a missing folder is ignored', X64 + b'  gone/a\n' + GOOD, *missing),
        of_list('a list of missing files alone', gone * 2, *missing),
        of_list('a list of missing files alone, quiet', gone, *missing, '-q'),
        of_list('a list of missing files alone, status', gone, *missing, '--status'),
        of_list('missing files and a wrong line', gone + WRONG + b'  a\n', *missing),
        of_list('nothing is missing', GOOD, *missing),
        of_list('no proper line, --ignore-missing', b'junk\n', *missing, '-w'),
        of_list('an empty list, --ignore-missing', b'', *missing),
        of_list(
            'a line that is too long, --ignore-missing',
            gone + b'x' * 40000 + b'\n' + GOOD,
            *missing,
            expected=over_long(2, out=GOOD_OUT),
        ),
        Case('several lists, --ignore-missing', (*missing, 'L', 'good', 'wrong'), files={'L': gone}),
        Case('a missing list, --ignore-missing', (*missing, 'gone', 'good')),
        Case('a list from input, --ignore-missing', missing, given=gone),
        Case('names, --ignore-missing', ('--ignore-missing', 'gone', 'a')),
        *(
            of_list(
                f'{name} is not missing',
                X64 + b'  ' + file + b'\n' + GOOD,
                *missing,
                expected=one_unread(messages.unread_listed('L', 1, file, why) + GOOD_OUT),
            )
            for name, file, why in (
                ('a file below no folder', b'a/b', 'Not a directory'),
                ('a folder in a list', b'd', IS_FOLDER),
                ('a name that is not UTF-8', b'\xff\xfe', messages.NOT_UTF8),
                ('a link to itself', b'loop', 'Too many levels of symbolic links'),
                ('a read that fails', FAILING.encode(), messages.IO_ERROR),
            )
        ),
    ]


def lines_with_nuls():
    """-z, which neither original has: each line as by `sha256sum -z`."""
    odd = ('back\\slash', 'line\nfeed', 'return\r')

    def beside(name, option, bare, form):
        return Case(
            name,
            shell=f'for X in "$X" sha256sum; do "$X" {option} a "b c" *slash line* return* e | sed -z "{bare}" '
            '>"${X##*/}.z"; done; cmp xxhsum.z sha256sum.z && cat xxhsum.z',
            expected=ours(b''.join(form % word.encode() for word in ('a', 'b c', *odd, 'e'))),
        )

    def raw(digits, *names):
        return b''.join(digits + b'  ' + name.encode() + b'\0' for name in names)

    return [
        beside('lines that NULs end, as sha256sum has them', '-z', 's/^[0-9a-f]*//', b'  %s\0'),
        beside(
            'tagged lines that NULs end, as sha256sum has them',
            '-z --tag',
            's/^[A-Z0-9]* //; s/[0-9a-f]*$//',
            b'(%s) = \0',
        ),
        Case('-z of odd names', ('-z', *odd), expected=ours(raw(X64, *odd))),
        Case('--zero and -H3', ('--zero', '-H3', *odd), expected=ours(raw(b'XXH3_' + X3, *odd))),
        Case('-z among other letters', ('-qzH0', *odd), expected=ours(raw(X32, *odd))),
        Case('-z and -H2, little endian', ('-z', '-H2', '--little-endian', 'a'), expected=ours(raw(X128_LE, 'a'))),
        Case('-z of the input', ('-z', '--tag'), given=HELLO, expected=ours(b'XXH64 (stdin) = ' + X64 + b'\0')),
        Case(
            '-z of names that NULs end',
            ('-z', '--files0-from', '-'),
            given=b'a\0line\nfeed\0',
            expected=ours(raw(X64, 'a', 'line\nfeed')),
        ),
        Case('-z and a missing file', ('-z', 'gone', 'a'), expected=ours(raw(X64, 'a'), GONE, 1)),
        *(
            Case(name, args, expected=fails([messages.wrong("'-z' with '-c'")]))
            for name, args in (
                ('-z with -c', ('-z', '-c', 'good')),
                ('-c with --zero', ('-c', '--zero', 'good')),
                ('-c and --audit with -z', ('-cz', '--audit', 'good', 'a')),
            )
        ),
    ]


def audits_with_nuls():
    """-z of an audit: records that end with a NUL, with unchanged names, and messages that are still lines."""
    lines = X64 + b'  a\n' + WRONG + b'  *star\n' + EMPTY + b'  e\n' + X64 + b'  old\n' + X64_LE + b'  lost\n'
    listed = {'lines': lines}
    changed = (b'*star: changed', b'a: same', b'e: same', b'(p): moved from\0old', b'b c: new', b'lost: missing')
    gone = one_line(messages.unopened('no\nfile'))
    names = ('--audit', 'lines', 'a', 'e', 'b c', '(p)', '*star')
    counts = b'1 same, 0 changed, 1 moved, 1 copied, 0 new, 0 missing, 0 unreadable\0'
    odd = {'lines': GOOD + b'\\' + X64 + b'  old\\nname\n', 'y: z': HELLO}
    return [
        Case('-z with --audit', ('-z', '--audit', 'good', 'a'), expected=audited(b'a: same', end=b'\0')),
        Case('-z and an audit', ('-z', *names), files=listed, expected=audited(*changed, end=b'\0')),
        Case(
            '--zero and an audit, quiet',
            ('-q', '--zero', *names),
            files=listed,
            expected=ours(
                b'\0'.join((changed[0], *changed[3:]))
                + b'\x002 same, 1 changed, 1 moved, 0 copied, 1 new, 1 missing, 0 unreadable\0',
                status=1,
            ),
        ),
        Case('-z and an audit, status', ('-z', '--status', *names), files=listed, expected=ours(b'', status=1)),
        Case(
            '-z and an audit of odd names',
            ('-z', '--audit', 'lines', 'a', 'line\nfeed', 'y: z'),
            files=odd,
            expected=ours(b'a: same\0line\nfeed: moved from\0old\nname\0y: z: copy of\0a\0' + counts, status=1),
        ),
        Case(
            '-z and an audit of a missing file',
            ('-z', '--audit', 'good', 'a', 'no\nfile'),
            expected=audited(b'a: same', b'no\nfile: unreadable', err=gone, end=b'\0'),
        ),
        Case(
            '-z and an audit of names that NULs end',
            ('-z', '--audit', '--files0-from', 'lines'),
            files=listed,
            given=b'*star\0b c\0a\0(p)\0e',
            expected=audited(*changed, end=b'\0'),
        ),
        Case(
            '-z and an audit of a folder',
            shell='mkdir -p t/b; cp a "t/b/l\ne"; cp e t/a; "$X" -rH3 t >list; mv t/b/l*e t/m; "$X" -rz --audit list t',
            expected=audited(b't/a: same', b't/m: moved from\0t/b/l\ne', end=b'\0'),
        ),
        Case(
            '-z and an audit of a malformed list',
            ('-z', '--audit', 'lines', 'a'),
            files={'lines': b'l\n'},
            expected=fails([messages.in_line('lines', 1)]),
        ),
    ]


def audits_as_json():
    """--format of an audit: an object for each result, and messages that are still lines."""
    lines = X64 + b'  a\n' + WRONG + b'  *star\n' + EMPTY + b'  e\n' + X64 + b'  old\n' + X64_LE + b'  lost\n'
    changed = (
        json_object('changed', b'*star', b'', WRONG, X64)
        + json_object('same', b'a', b'', X64, X64)
        + json_object('same', b'e', b'', EMPTY, EMPTY)
        + json_object('moved', b'(p)', b'old', X64, X64)
        + json_object('new', b'b c', actual=b'e778fbfe66ee51ef')
        + json_object('missing', b'lost', listed=X64_LE)
    )
    names = ('lines', 'a', 'e', 'b c', '(p)', '*star')
    odd = b'\x01"\\\b\t\n\f\r\x1f\x7f\xc2\x80\xf0\x9f\x98\x80'
    xxh3 = b'XXH3_' + X3
    no_text = b'no\xfftext \xc3\xa9'
    missing = {'lines': X64 + b'  ' + no_text + b'\n'}
    gone = one_line(messages.unopened(no_text, messages.NOT_UTF8))

    def audit(name, args, expected, **files):
        return Case(name, ('--audit', *args), files={'lines': lines, **files}, expected=expected)

    return [
        audit('an audit as JSON', ('--format=json', *names), ours(changed, status=1)),
        audit('an audit as JSON, by two words', ('--format', 'json', *names), ours(changed, status=1)),
        audit(
            'an audit as JSON, quiet',
            ('-q', '--format=json', 'lines', 'a', '*star'),
            ours(
                json_object('changed', b'*star', b'', WRONG, X64)
                + json_object('missing', b'e', listed=EMPTY)
                + json_object('missing', b'lost', listed=X64_LE)
                + json_object('missing', b'old', listed=X64),
                status=1,
            ),
        ),
        audit('an audit as JSON, status', ('--status', '--format=json', *names), ours(b'', status=1)),
        audit('an audit as text', ('--format=json', '--format=text', 'lines', 'a'), audited(b'a: same'), lines=GOOD),
        audit('an audit as text, with -z', ('-z', '--format', 'text', 'good', 'a'), audited(b'a: same', end=b'\0')),
        audit(
            'an audit as JSON of an odd name',
            ('--format=json', 'lines', odd, 'copy'),
            ours(json_object('same', odd, b'', xxh3, xxh3) + json_object('copied', b'copy', odd, xxh3, xxh3), status=1),
            lines=b'\\' + xxh3 + b'  ' + escaped(odd) + b'\n',
            copy=HELLO,
            **{os.fsdecode(odd): HELLO},
        ),
        audit(
            'an audit as JSON, little endian',
            ('--format=json', '--little-endian', 'lines', 'a'),
            ours(json_object('same', b'a', b'', X128_LE, X128_LE)),
            lines=X128_LE + b'  a\n',
        ),
        audit(
            'an audit as JSON of a missing name that is not UTF-8',
            ('--format=json', 'lines'),
            ours(json_object('missing', no_text, listed=X64), status=1),
            **missing,
        ),
        audit(
            'an audit as JSON of a name that is not UTF-8',
            ('--format=json', '--files0-from', 'lines', 'names'),
            ours(json_object('unreadable', no_text), gone, 1),
            names=no_text,
            **missing,
        ),
        audit(
            'an audit as JSON of a malformed list',
            ('--format=json', 'lines', 'a'),
            fails([messages.in_line('lines', 1)]),
            lines=b'l\n',
        ),
        Case(
            'an audit as JSON to a full disk', shell='"$X" --audit --format=json good a >/dev/full', expected=refused()
        ),
        *(
            Case(f'{name} of --format', args, expected=fails([messages.wrong(what)]))
            for name, args, what in (
                ('another value', ('--audit', '--format=xml', 'good', 'a'), "'--format=xml'"),
                ('another value as a word', ('--audit', '--format', 'JSON', 'good', 'a'), "'JSON'"),
                ('an empty value', ('--audit', '--format=', 'good', 'a'), "'--format='"),
                ('no value', ('--audit', '--format'), "'--format'"),
                ('no audit', ('--format=json', 'a'), "'--format' without '--audit'"),
                ('a check', ('-c', '--format', 'text', 'good'), "'--format' without '--audit'"),
                ('NULs', ('-z', '--audit', '--format=json', 'good', 'a'), "'-z' with '--format=json'"),
            )
        ),
    ]


def several_lists():
    """Lists by names, from standard input, and missing."""
    return [
        Case('several lists', ('-c', 'good', 'wrong', 'junk', 'good')),
        Case('several lists, status', ('-c', '--status', 'wrong', 'good')),
        Case('several lists, quiet and warned', ('-cqw', 'junk', 'good', 'empty')),
        Case('a missing list', ('-c', 'gone', 'good')),
        Case('a missing list alone', ('-c', 'gone')),
        Case('a missing list, status', ('-c', '--status', 'gone')),
        Case(
            'a folder as a list', ('-c', 'd', 'good'), expected=fails([messages.in_line('d', 1, IS_FOLDER)], GOOD_OUT)
        ),
        Case(
            'a list of which each read fails',
            ('-c', FAILING, 'good'),
            expected=fails([messages.in_line(FAILING, 1, messages.IO_ERROR)], GOOD_OUT),
        ),
        Case('options after a list are lists', ('-c', 'good', '-q')),
        Case('lists after --', ('-c', '--', 'good', '-x')),
        Case('the last of two options', ('-q', '-c', 'wrong')),
        Case('a list from input', ('-c',), given=GOOD + WRONG + b'  a\n'),
        Case('a list from input by -', ('-c', '-'), given=WRONG + b'  a\n' + X64 + b'  gone\n' + b'junk\n'),
        Case('a warned list from input', ('-cw',), given=b'junk\n' + GOOD),
        Case('an empty list from input', ('-c',)),
        Case('a list named stdin', ('-c', 'stdin'), given=WRONG + b'  a\n', files={'stdin': GOOD}),
        Case('- in a list is a file', ('-c',), given=X64 + b'  -\n', files={'-': HELLO}),
        Case(
            'stdin in a list from input',
            ('-c',),
            given=GOOD + X64 + b'  stdin\n' + GOOD,
            expected=one_unread(b'a: OK\n' + no_stdin('stdin', 2) + GOOD_OUT),
        ),
        of_list('stdin in a list', X64 + b'  stdin\n', given=HELLO, expected=one_unread(no_stdin('L', 1))),
        of_list(
            'stdin in a list, twice',
            X64 + b'  stdin\n' + EMPTY + b'  stdin\n',
            given=HELLO,
            expected=ours(no_stdin('L', 1) + no_stdin('L', 2) + messages.counts(unread=2), b'', 1),
        ),
        Case(
            'a folder as input of lists', shell='"$X" -c <d', expected=fails([messages.in_line('stdin', 1, IS_FOLDER)])
        ),
        Case('closed input of lists', shell='"$X" -c <&-', expected=fails([messages.in_line('stdin', 1, IS_CLOSED)])),
        Case('a pipe as a list', shell=f'mkfifo p; printf "{X64.decode()}  a\\n" >p & "$X" -c p'),
    ]


def ends():
    """A full disk and closed streams. The original doesn't report that its output is lost; ours must."""
    return [
        Case('a full disk', shell='"$X" a >/dev/full', expected=refused()),
        Case('a full disk, many lines', ('a',) * 3, shell='"$X" a a a >/dev/full', expected=refused()),
        Case('a full disk, a list', shell='"$X" -c good >/dev/full', expected=refused()),
        Case('closed output', shell='"$X" a >&-', expected=refused()),
        Case('closed output, a list', shell='"$X" -c good >&-', expected=refused()),
        Case('closed error', shell='"$X" a gone 2>&-', compared=NO_ERROR_TEXT),
        Case('a full disk for errors', shell='"$X" a gone 2>/dev/full', compared=NO_ERROR_TEXT),
    ]


def trees():
    """Lists of names, and audits, which neither original has."""
    listed = {'listed': b'a\nb c\n(p)\n', 'more': b'e\n*star'}
    lines = X64 + b'  a\n' + WRONG + b'  *star\n' + EMPTY + b'  e\n' + X64 + b'  old\n' + X64_LE + b'  lost\n'
    changed = audited(b'*star: changed', b'a: same', b'e: same', b'(p): moved from old', b'b c: new', b'lost: missing')

    def audit(name, args, listed, expected, **files):
        return Case(name, ('--audit', 'lines', *args), files={'lines': listed, **files}, expected=expected)

    return [
        Case('names of a file', ('--files-from', 'listed'), files=listed),
        Case('names of a file, by the other word', ('--filelist', '-H0', 'listed'), files=listed),
        Case('names of two files', ('--files-from', '--tag', 'listed', 'more'), files=listed),
        Case('names of the input', ('--files-from',), given=b'a\ne\n'),
        Case(
            'names with carriage returns',
            ('--files-from', 'listed'),
            files={'listed': b'return\r\na\r\n'},
            expected=fails([messages.unopened('a\r')], b'\\' + X64 + b'  return\\r\n'),
        ),
        audit('an audit of a list with carriage returns', ('a',), X64 + b'  a\r\n', audited(b'a: same')),
        Case(
            'names that NULs end',
            ('--files0-from', 'ended'),
            files={'ended': b'a\0line\nfeed\0e'},
            expected=ours(X64 + b'  a\n\\' + X64 + b'  line\\nfeed\n' + EMPTY + b'  e\n'),
        ),
        Case(
            'an audit of names of the input, by -',
            ('--audit', '--files0-from', '-', 'good'),
            given=b'a\0',
            expected=audited(b'a: same'),
        ),
        Case(
            'names that NULs end, of the input',
            ('--files0-from', '-'),
            given=b'a\0e\0',
            expected=ours(GOOD + EMPTY + b'  e\n'),
        ),
        audit('an audit', ('a', 'e', 'b c', '(p)', '*star'), lines, changed),
        Case(
            'an audit of names of the input',
            ('--audit', '--files0-from', 'lines'),
            files={'lines': lines},
            given=b'*star\0b c\0a\0(p)\0e',
            expected=changed,
        ),
        Case('an audit of what stayed', ('--audit', '-H0', 'good', 'a'), expected=audited(b'a: same')),
        audit(
            'an audit of copies',
            ('z', 'a', 'y', 'k', '(p)'),
            GOOD + X64 + b'  (p)\n',
            audited(b'(p): same', b'a: same', b'k: new', b'y: copy of (p)', b'z: copy of (p)'),
            y=HELLO,
            z=HELLO,
            k=b'',
        ),
        audit(
            'an audit of a copy beside a moved file',
            ('a', 'y', 'z'),
            GOOD + X64 + b'  old\n',
            audited(b'a: same', b'y: moved from old', b'z: copy of a'),
            y=HELLO,
            z=HELLO,
        ),
        audit(
            'an audit of the bytes of a file before and after it changed',
            ('a', 'y', 'k'),
            EMPTY + b'  a\n',
            audited(b'a: changed', b'k: new', b'y: new'),
            y=HELLO,
            k=b'',
        ),
        audit(
            'an audit of a copy by another algorithm',
            ('(p)', 'a', 'z'),
            b'XXH3_' + X3_LE + b'  (p)\n' + GOOD,
            audited(b'(p): changed', b'a: same', b'z: new'),
            z=HELLO,
        ),
        audit(
            'an audit of names with ./',
            ('./a', 'e', './z', '././y'),
            GOOD + EMPTY + b'  ././e\n',
            audited(b'./a: same', b'e: same', b'././y: copy of ./a', b'./z: copy of ./a'),
            y=HELLO,
            z=HELLO,
        ),
        audit(
            'an audit of a line with ./ that is missing',
            ('z',),
            X64 + b'  ./old\n',
            audited(b'z: moved from ./old'),
            z=HELLO,
        ),
        audit(
            'an audit of lines that differ by ./',
            ('a',),
            GOOD + X64 + b'  ./a\n',
            fails([b"lines: duplicate name './a'."]),
        ),
        audit('an audit of names that differ by ./', ('a', '././a'), GOOD, fails([b"Error: duplicate name '././a'."])),
        audit(
            'an audit of names that differ by ./ inside',
            ('d/inner', 'd/./inner'),
            X64 + b'  d/inner\n',
            audited(b'd/inner: same', b'd/./inner: copy of d/inner'),
        ),
        audit('an audit of two kinds', ('a',), X128 + b'  old\n', audited(b'a: moved from old')),
        audit(
            'an audit of a name that is not there',
            ('a', 'gone'),
            GOOD,
            audited(b'a: same', b'gone: unreadable', err=GONE),
        ),
        audit(
            'an audit of a listed name that is not there',
            ('a', 'gone'),
            GOOD + X64 + b'  gone\n',
            audited(b'a: same', b'gone: unreadable', err=GONE),
        ),
        audit(
            'an audit of a folder among the names',
            ('a', 'd'),
            GOOD,
            audited(b'a: same', b'd: unreadable', err=messages.is_folder('d')),
        ),
        audit(
            'an audit of names with a colon and a space',
            ('x: y', 'x: moved from y', 'p:q', 'r :s', 't: '),
            (
                X64
                + b'  y: same\n'
                + EMPTY
                + b'  x: moved from y\n'
                + EMPTY
                + b'  p:q\n'
                + EMPTY
                + b'  r :s\n'
                + EMPTY
                + b'  t: \n'
            ),
            audited(
                b'p:q: same',
                b'r :s: same',
                b'\\t:\\ : same',
                b'\\x:\\ moved from y: same',
                b'\\x:\\ y: moved from y: same',
            ),
            **{'x: y': HELLO, 'x: moved from y': b'', 'p:q': b'', 'r :s': b'', 't: ': b''},
        ),
        audit('an audit of a line that stands twice', ('a',), GOOD * 2, fails([b"lines: duplicate name 'a'."])),
        audit('an audit of a name that stands twice', ('a', 'a'), GOOD, fails([b"Error: duplicate name 'a'."])),
        audit('an audit of a list that breaks off', ('a',), GOOD + X64, IMPROPER),
        audit(
            'an audit of a list with a line of 32768 bytes',
            ('a',),
            GOOD + line_of(32768) + GOOD,
            fails([messages.in_line('lines', 2, messages.TOO_LONG)]),
        ),
        audit('an audit of a list with a last line of 32767 bytes', ('a',), GOOD + line_of(32767, b'\r')[1:], IMPROPER),
        Case('an audit without a list', ('--audit',), expected=fails([b'Error: --audit needs a list.'])),
        Case(
            'an audit to a full disk',
            files={'lines': GOOD},
            shell='"$X" --audit lines a >/dev/full',
            expected=refused(),
        ),
    ]


def small_stacks():
    """The stack that docs/XXHSUM.md promises."""
    cases = {
        'a file': ('a', GOOD),
        'a list': ('-c good', GOOD_OUT),
        'names': ('--files-from named', GOOD),
        'a folder': ('-r d', X64 + b'  d/inner\n'),
        'a folder below another': ('-rC . d', X64 + b'  d/inner\n'),
        'an audit': ('--audit good a', audited(b'a: same')['out']),
        'an audit as JSON': ('--audit --format=json good a', json_object('same', b'a', b'', X64, X64)),
        'an audit of a folder': ('-r --audit inner d', audited(b'd/inner: same')['out']),
        'input': ('- <a', X64 + b'  stdin\n'),
    }
    return [
        Case(
            f'a small stack, {name}',
            shell=f'ulimit -s 320; "$X" {args}',
            expected=ours(out),
            files={'named': b'a\n', 'inner': X64 + b'  d/inner\n'},
        )
        for name, (args, out) in cases.items()
    ]


def excluded(tree):
    """Runs that skip names in directories."""
    found = {
        'a file': (('--exclude', 'z'), b'', (b'B', b'a', b'b/deep/q', b'b.x/c')),
        'a folder, and of a file': (('--exclude=deep', '--exclude', 'a'), b'', (b'B', b'b/z', b'b.x/c')),
        'each name with a dot': (('--exclude', '*.*'), b'', (b'B', b'a', b'b/deep/q', b'b/z')),
        'names of three bytes': (('--exclude=?.?',), b'', (b'B', b'a', b'b/deep/q', b'b/z')),
        'names of one byte': (('--exclude=?',), b'', ()),
        'a quoted star': (('--exclude', '\\*'), b'', (b'B', b'a', b'b/deep/q', b'b/z', b'b.x/c')),
        'the names that are given': (('--exclude', 't', '--exclude=B'), b't/B', (b'a', b'b/deep/q', b'b/z', b'b.x/c')),
        'everything': (('--exclude=*',), b'', ()),
    }
    digests = {b'B': EMPTY, b'b/deep/q': EMPTY}

    def lines(names):
        return b''.join(digests.get(name, X64) + b'  t/' + name + b'\n' for name in names)

    wrong = b"Wrong parameters: '--exclude'"
    slash = fails([b"Wrong parameters: '/' in a pattern of '--exclude'"])
    return [
        *(
            Case(
                f'--exclude of {name}',
                shell=f'{tree}"$X" -r {shlex.join(args)} {given.decode()} t',
                expected=ours((EMPTY + b'  t/B\n' if given else b'') + lines(names)),
            )
            for name, (args, given, names) in found.items()
        ),
        Case(
            '--exclude in an audit',
            shell=tree + '"$X" -r --exclude b t >list; "$X" -r --audit --exclude=b list t',
            expected=audited(b't/B: same', b't/a: same', b't/b.x/c: same'),
        ),
        Case('--exclude without -r', ('--exclude', 'a', 'b'), expected=fails([wrong + b" without '-r'"])),
        Case('--exclude without a pattern', ('-r', '--exclude'), expected=fails([wrong])),
        Case('--exclude of a path', ('-r', '--exclude', 'd/inner', 'd'), expected=slash),
        Case('--exclude= of a path', ('--exclude=/', '-r', 'd'), expected=slash),
    ]


def directories():
    """Runs with names that are relative to a directory."""
    inner = X64 + b'  inner\n'
    found = {
        'a file': ('-C d inner', inner),
        'a file, in one word': ('--directory=d/ ./inner', X64 + b'  ./inner\n'),
        'a file, behind letters': ('-zqC d inner', X64 + b'  inner\0'),
        'a link': ('-C linked-folder inner', inner),
        'an absolute name': ('-C d "$PWD/a" | sed "s#$PWD##"', X64 + b'  /a\n'),
        'standard input': ('-C gone - <a', X64 + b'  stdin\n'),
        'a list': ('-C d inner >d/list; "$X" -cC d list', b'inner: OK\n'),
        'a list on standard input': ('-C d inner | "$X" -cC d', b'inner: OK\n'),
        'a folder': ('-rC . d', X64 + b'  d/inner\n'),
        'a folder, excluding': ('-rC d --exclude=n* .', X64 + b'  ./inner\n'),
        'an audit': ('-C d inner >d/list; "$X" --audit -C d list inner', audited(b'inner: same')['out']),
        'a path of 4,095 bytes': ('-C d "$(printf "./%.0s" $(seq 2044))inner" | cut -c1-16', X64 + b'\n'),
    }
    long = b'./' * 2045 + b'inner'
    wrong = fails([messages.wrong("'-C' twice or without a directory")])
    return [
        *(Case(f'-C of {name}', shell=f'"$X" {args}', expected=ours(out)) for name, (args, out) in found.items()),
        Case('--directory of a file', ('--directory', 'd', 'inner'), expected=ours(inner)),
        Case('-C of names in a list', shell='echo inner >d/names; "$X" --files-from -C d names', expected=ours(inner)),
        Case('-C of a missing file', ('-C', 'd', 'a'), expected=fails([messages.unopened('a')])),
        Case('-C of an empty name', ('-C', 'd', ''), expected=fails([messages.unopened('')])),
        Case('-C of a missing directory', ('-C', 'gone', 'inner'), expected=fails([messages.unopened('inner')])),
        Case('-C of the directory itself', ('-C', 'd', '.'), expected=fails([messages.is_folder('.')])),
        Case(
            '-C of a path of 4,097 bytes',
            shell='"$X" -C d "$(printf "./%.0s" $(seq 2045))inner"',
            expected=fails([messages.unopened(long, 'File name too long')]),
        ),
        Case('-C without a directory', ('-C',), expected=fails([messages.wrong("'-C'")])),
        Case('-C of nothing', ('-C', '', 'a'), expected=wrong),
        Case('--directory= of nothing', ('--directory=', 'a'), expected=wrong),
        Case('-C before an option', ('-C', '-r', 'd'), expected=wrong),
        Case('-C twice', ('-C', 'd', '--directory=.', 'inner'), expected=wrong),
        Case('-C before other letters', ('-Cr', 'd'), expected=fails([messages.wrong("'-Cr'")])),
    ]


def folders():
    """The files below directories, which neither original reads."""
    tree = (
        'mkdir -p t/b/deep t/b.x t/none; cp a t/a; cp e t/B; cp a t/b/z; cp e t/b/deep/q; cp a t/b.x/c; ln -s ../a '
        't/b/file; '
        'ln -s ../../d t/b/folder; ln -s .. t/b/up; mkfifo t/pipe; '
    )
    # Root in the tests can read all directories, unless it drops that capability.
    bound = '[ "$(id -u)" = 0 ] && run="setpriv --bounding-set=-dac_override,-dac_read_search"; chmod 0 t/b; '
    cases = [(EMPTY, b'B'), (X64, b'a'), (EMPTY, b'b/deep/q'), (X64, b'b/z'), (X64, b'b.x/c')]
    found = b''.join(digits + b'  t/' + name + b'\n' for digits, name in cases)
    closed = messages.unopened('t/b', 'Permission denied')
    beside = fails([messages.wrong("'-r' with '-c' or lists of names")])
    alone = fails([messages.wrong("'-r' without a FILE")])

    return [
        Case('-r of a tree', shell=tree + '"$X" -r t', expected=ours(found)),
        Case(
            '-r as find and sort have it',
            shell=tree + 'rm t/b.x/c; "$X" -r t >ours; find t -type f -print0 | LC_ALL=C sort -z | '
            '"$X" --files0-from >theirs; cmp ours theirs',
            expected=ours(b''),
        ),
        Case('-r of a name that ends with a slash', ('-r', 'd/'), expected=ours(X64 + b'  d/inner\n')),
        Case(
            '--recursive of names in the order in which they came',
            ('--recursive', 'e', 'd', 'a'),
            expected=ours(EMPTY + b'  e\n' + X64 + b'  d/inner\n' + X64 + b'  a\n'),
        ),
        Case('-r among other letters', ('-rzH0', 'd'), expected=ours(X32 + b'  d/inner\0')),
        Case(
            '-r of links that are named',
            ('-r', 'linked-folder', 'link'),
            expected=ours(X64 + b'  linked-folder/inner\n' + X64 + b'  link\n'),
        ),
        Case(
            '-r of links that lead nowhere',
            ('-r', 'broken', 'd'),
            expected=fails([messages.unopened('broken')], X64 + b'  d/inner\n'),
        ),
        Case('-r of an empty folder', shell='mkdir t; "$X" -r t', expected=ours(b'')),
        Case(
            '-r of a name that is not UTF-8',
            shell='mkdir t; cp a t; cp a "$(printf "t/\\377")"; "$X" -r t',
            expected=fails([messages.unopened(b't/\xff', messages.NOT_UTF8)], X64 + b'  t/a\n'),
        ),
        Case(
            '-r of many names',
            shell='mkdir t; seq 3000 | sed "s#^#t/#" | xargs touch; "$X" -r t | wc -l',
            expected=ours(b'3000\n'),
        ),
        Case(
            '-r of names of 230 to 255 bytes',
            shell='mkdir t; for count in $(seq 230 255); do cp a "t/$(printf "%0${count}d" 0)"; ' 'done; "$X" -r t',
            expected=ours(b''.join(X64 + b'  t/' + b'0' * count + b'\n' for count in range(230, 256))),
        ),
        Case(
            '-r of deep folders',
            shell='mkdir -p "$(printf "t%.0s/" $(seq 900))"; cp a "$(printf "t%.0s/" $(seq 900))"; '
            '"$X" -r t | cut -c1-16',
            expected=ours(X64 + b'\n'),
        ),
        Case(
            '-r of a folder that can not be read',
            shell=tree + bound + '$run "$X" -r t; status=$?; chmod 700 t/b; exit $status',
            expected=fails([closed], b''.join(line for line in found.splitlines(keepends=True) if b't/b/' not in line)),
        ),
        *excluded(tree),
        Case('-r to a full disk', shell='"$X" -r d >/dev/full', expected=refused()),
        Case(
            'an audit of a folder',
            shell=tree + '"$X" -r t >list; "$X" --audit -r list t',
            expected=audited(*(b't/' + name + b': same' for name in sorted(name for _, name in cases))),
        ),
        Case(
            'an audit of a folder that has changed',
            shell=tree + '"$X" -rH3 t >list; mv t/b/deep/q t/q; rm t/B; echo >>t/a; ' '"$X" --audit -qr list t',
            expected=fails(
                [],
                b't/a: changed\nt/b/deep/q: missing\nt/q: moved from t/B\n'
                b'2 same, 1 changed, 1 moved, 0 copied, 0 new, 1 missing, 0 unreadable\n',
            ),
        ),
        Case(
            'an audit of a folder that can not be read',
            shell=tree + '"$X" -r t >list; ' + bound + '$run "$X" --audit -r list t; '
            'status=$?; chmod 700 t/b; exit $status',
            expected=audited(
                b't/B: same',
                b't/a: same',
                b't/b.x/c: same',
                b't/b: unreadable',
                b't/b/deep/q: unreadable',
                b't/b/z: unreadable',
                err=closed,
            ),
        ),
        Case('-r without a name', ('-r',), expected=alone),
        Case('-r of the input', ('-r', '-'), expected=alone),
        Case('an audit of no folder', ('-r', '--audit', 'good'), expected=alone),
        Case('-r with -c', ('-r', '-c', 'good'), expected=beside),
        Case('-r with names of a file', ('--files-from', '-r', 'good'), expected=beside),
        Case('-r with names that NULs end', ('--files0-from', '-r', 'good'), expected=beside),
    ]


def named():
    """Names that would end a line, in messages other than digests: one line, as in lists. The originals print them
    unchanged, so that the author of a list or of a file's name can forge a line."""
    odd = b'gone\na: OK'
    escaped = b'\\' + X64 + b'  gone\\na: OK\n'

    def in_folder(line, **expected):
        return {
            'shell': f'mkdir "$(printf "x\\ny")"; printf "junk\\n" >"$(printf "l\\nL")"; {line}',
            'expected': expected,
        }

    listed = messages.unread_listed('L', 1, odd)
    return [
        of_list('a list that forges a line', escaped + GOOD, expected=one_unread(one_line(listed) + GOOD_OUT)),
        of_list(
            'a wrong line of an odd name',
            b'\\' + WRONG + b'  line\\nfeed\n',
            expected=ours(one_line(b'line\nfeed: FAILED') + messages.counts(different=1), b'', 1),
        ),
        Case(
            'a missing file of an odd name',
            (odd, 'back\\gone'),
            expected=fails([messages.unopened(odd), messages.unopened('back\\gone')]),
        ),
        Case('a missing file of an odd name, -z', ('-z', odd), expected=fails([messages.unopened(odd)])),
        Case('a missing list of an odd name', ('-c', odd), expected=fails([messages.unopened(odd, end='')])),
        Case('a folder of an odd name', **in_folder('"$X" x*y', **fails([messages.is_folder('x\ny')]))),
        Case(
            'a list of an odd name',
            **in_folder('"$X" -cw l*L', **fails([messages.in_line('l\nL', 1), messages.no_proper_line('l\nL')])),
        ),
        Case(
            'a list of an odd name, --ignore-missing',
            **in_folder(
                f'printf "{X64.decode()}  gone\\n" >"$(printf "l\\nL")"; "$X" -c --ignore-missing l*L',
                out=one_line(messages.none_verified('l\nL')),
                err=b'',
                status=1,
            ),
        ),
        Case(
            'a missing list of names of an odd name',
            ('--files-from', odd),
            expected=fails([messages.unopened(odd, end='.')]),
        ),
        Case(
            'an audit of a list of an odd name',
            **in_folder('"$X" --audit l*L a', **fails([messages.in_line('l\nL', 1)])),
        ),
        Case(
            'an audit of an odd name that stands twice',
            ('--audit', 'good', 'line\nfeed', 'line\nfeed'),
            expected=fails([b"Error: duplicate name 'line\nfeed'."]),
        ),
        Case(
            'an audit of a line of an odd name that stands twice',
            ('--audit', 'L', 'a'),
            files={'L': escaped * 2},
            expected=fails([b"L: duplicate name '" + odd + b"'."]),
        ),
        Case(
            'an audit of odd names',
            ('--audit', 'L', 'line\nfeed'),
            files={'L': escaped},
            expected=audited(one_line(b'line\nfeed: moved from ' + odd)[:-1]),
        ),
    ]


CASES = (
    names()
    + algorithms()
    + lines()
    + options()
    + input_alone()
    + program_names()
    + verdicts()
    + plain_lines()
    + long_lines()
    + tagged_lines()
    + missing_files()
    + lines_with_nuls()
    + audits_with_nuls()
    + audits_as_json()
    + several_lists()
    + ends()
    + trees()
    + small_stacks()
    + folders()
    + directories()
    + named()
)

# The cases in which one of the originals differs from ours, for the reasons in docs/XXHSUM.md: 0.8.1 has no escapes,
# comments and XXH3 without a tag, and has fewer options.
OLDER_DIFFERS = {
    'a backslash in a name',
    'a line feed in a name',
    'a carriage return in a name',
    '-H3',
    'every length, -H3',
    'little endian, -H3',
    'tagged lines of odd names',
    'XXH3 of odd names',
    'input, XXH3',
    'called xxh3sum',
    'a comment',
    'comments alone',
    'odd names',
    'the prefix of later versions',
    'the word --binary',
    'names of a file',
    'names of a file, by the other word',
    'names of two files',
    'names of the input',
    'the word --ignore-missing',
    *(case.name for case in missing_files() if not case.expected),
}
NEWER_DIFFERS = {'called xxh32sum, a list'}
