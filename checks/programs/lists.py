"""Lists of hostile names: one `xxhsum` makes them, and another one checks them.

    checks/xxhsum-lists ORIGINAL OURS [--older PROGRAM] [--lists N] [--only WORD]

The original is release 0.8.3, which escapes names as ours does; --older is 0.8.1, whose lists of names with no newline
are checked by ours. A list counts as parsed correctly only if the checker prints OK for exactly its names, in their
order.

- Names of each byte except NUL and `/`, in both directions. A name that is not UTF-8 is refused by ours, which must
  report only that name.
- 10,000 lists of random names made of the characters of lines, in each hash and form.
- A list that comes through a pipe in two parts, split at each of its bytes, and one that comes byte by byte.

Each part must also detect wrong lists: with another digest, or with a backslash removed. The last line is "N passed,
M failed". It takes about two minutes."""
import array
import contextlib
import fcntl
import os
import random
import re
import subprocess
import tempfile
import termios
import time

from checks.lib import command
from checks.lib.report import Report, check
from checks.lib.tools import write

from . import messages
from .runs import HASHES, found, is_utf8, marked

# One seed, so that each run draws the names of the run before.
SEED = 20261126
SHAPES = ((), ('--tag',), ('--little-endian',), ('--tag', '--little-endian'))
# The parts of random names: parts of lines, escaped characters, and what looks like an escape.
PARTS = [
    b'\\',
    b'\\',
    b'\\',
    b'\n',
    b'\n',
    b'\r',
    b'n',
    b'r',
    b' ',
    b'(',
    b')',
    b'=',
    b') = ',
    b'#',
    b'*',
    b'\t',
    b'a',
    b'\x01',
    b'\x7f',
    b'XXH3_',
    b'XXH64 (',
    b'_LE',
    b'ef46db3751d8e999',
    b'  ',
    'é'.encode(),
    '\u2028'.encode(),
    '😀'.encode(),
]
POOL = 1500


def make_files(names):
    for name in names:
        write(name, b'content of ' + name)


def all_good(names):
    """A checker's output for a list of these files."""
    return b''.join(marked(name) + b': OK\n' for name in names), b'', 0


def list_of(program, args, names):
    text, err, status = found(program, [*args, *names])
    # Release 0.8.1 clears a line of progress, even if it showed none.
    check(status == 0 and not err.strip(), f'{args} {names}: {err!r:.300}')
    return text


def order_of(args):
    """The option that a checker of a list also needs."""
    return [word for word in args if word == '--little-endian']


def spoiled(text, rng):
    """The list with another digest or with a backslash removed."""
    if b'\\' in text and rng.random() < 0.5:
        place = rng.choice([i for i, byte in enumerate(text) if byte == ord('\\')])
        return text[:place] + text[place + 1 :]
    run = rng.choice(list(re.finditer(rb'[0-9a-f]{8,}', text)))
    place = rng.randrange(run.start(), run.end())
    return text[:place] + (b'1' if text[place : place + 1] == b'0' else b'0') + text[place + 1 :]


# ---- each byte


def names_of_each_byte(original, ours):
    names = [b'n' + bytes([byte]) + b'm' for byte in range(1, 256) if byte != ord('/')]
    make_files(names)
    readable = [name for name in names if is_utf8(name)]
    for args in [(algorithm, *shape) for algorithm in HASHES for shape in SHAPES]:
        text = list_of(ours, args, readable)
        check(text == list_of(original, args, readable), f'{args}: the lists differ')
        check(
            found(original, [*order_of(args), '-c'], text) == all_good(readable),
            f'{args}: the original reads ours otherwise',
        )
        text = list_of(original, args, names)
        out, err, status = found(ours, [*order_of(args), '-c'], text)
        check(
            (out, err, status) == refusing(names, text),
            f'{args}: ours reads the original otherwise: {out!r:.300} {err!r:.300}',
        )
    rng = random.Random(SEED)
    for _ in range(100):
        wrong = spoiled(list_of(ours, ('-H1',), readable), rng)
        check(found(original, ['-c'], wrong) != all_good(readable), 'a wrong list is not noticed')
    return f'{len(names)} names'


def refusing(names, text):
    """The output of ours for a list of these names: each that is not UTF-8 is reported, by itself and by its line."""
    check(text.count(b'\n') == len(names), 'a line is no line')
    output, unread = b'', 0
    for number, name in enumerate(names, 1):
        if is_utf8(name):
            output += marked(name) + b': OK\n'
        else:
            output += messages.unread_listed('stdin', number, name, messages.NOT_UTF8)
            unread += 1
    return output + messages.counts(unread=unread), b'', 1


# ---- random lists


def hostile_names(rng, count):
    names = set()
    while len(names) < count:
        name = b''.join(rng.choice(PARTS) for _ in range(rng.randrange(1, 9)))
        # A name that begins with a hyphen is an option, and `stdin` is no file to the original.
        if len(name) <= 200 and b'/' not in name and b'stdin' not in name:
            names.add(name)
    return sorted(names)


def random_list(rng, pool, maker, checker):
    """The options and the text of a list of some names, which the checker must take."""
    names = rng.choices(pool, k=rng.randrange(1, 9))
    args = (rng.choice(HASHES), *rng.choice(SHAPES))
    text = list_of(maker, args, names)
    answer = found(checker, [*order_of(args), '-c', '--strict', '-w'], text)
    check(answer == all_good(names), f'{args} {text!r}: {answer!r:.600}')
    return names, args, text


def random_lists(original, ours, count):
    rng = random.Random(SEED)
    pool = hostile_names(rng, POOL)
    make_files(pool)
    for number in range(count):
        maker, checker = (original, ours) if number % 2 else (ours, original)
        names, args, text = random_list(rng, pool, maker, checker)
        if number % 50 == 0:
            wrong = found(checker, [*order_of(args), '-c', '--strict', '-w'], spoiled(text, rng))
            check(wrong != all_good(names), f'a wrong list is not noticed: {text!r}')
    return f'{count} lists of {POOL} names'


def older_lists(older, ours, count):
    """Lists of 0.8.1, of names with no newline: its lines have no escapes."""
    rng = random.Random(SEED)
    pool = [name for name in hostile_names(rng, POOL) if b'\n' not in name]
    make_files(pool)
    for _ in range(count):
        random_list(rng, pool, older, ours)
    return f'{count} lists of {len(pool)} names'


# ---- parts


def in_pieces(program, pieces):
    """The output of the program for a list that a pipe delivers in these parts, each once the ones before were read."""
    with subprocess.Popen(
        [program, '-c'], stdin=subprocess.PIPE, stdout=subprocess.PIPE, stderr=subprocess.PIPE
    ) as run:
        for piece in pieces:
            run.stdin.write(piece)
            run.stdin.flush()
            wait_until_read(run.stdin)
        run.stdin.close()
        out, err = run.stdout.read(), run.stderr.read()
    return out, err, run.returncode


def wait_until_read(pipe):
    left = array.array('i', [1])
    end = time.monotonic() + 20
    while left[0]:
        check(time.monotonic() < end, 'the pipe is not read')
        fcntl.ioctl(pipe, termios.FIONREAD, left)


def cut_lists(original, ours):
    names = [b'a\\n\nb', b'\\', b'#', b') = \r', b'plain', 'é'.encode()]
    make_files(names)
    # Lines of a hash with a tag and of one without, of each name.
    text = (
        list_of(ours, ('-H3',), names[:3]) + list_of(ours, ('-H2', '--tag'), names[3:]) + list_of(ours, ('-H0',), names)
    )
    good = all_good([*names, *names])
    for program in (original, ours):
        check(found(program, ['-c'], text) == good, f'{program}: the whole list')
    for place in range(1, len(text)):
        answer = in_pieces(ours, [text[:place], text[place:]])
        check(answer == good, f'cut at {place}: {answer!r:.400}')
    check(in_pieces(ours, [bytes([byte]) for byte in text]) == good, 'byte by byte')
    rng = random.Random(SEED)
    for place in range(1, len(text), 20):
        wrong = spoiled(text, rng)
        check(in_pieces(ours, [wrong[:place], wrong[place:]]) != good, 'a wrong list is not noticed')
    return f'{len(text) - 1} places'


def main():
    parser = command.parser(__doc__, 'parts')
    parser.add_argument('original', help='the program of release 0.8.3')
    parser.add_argument('ours', help='our program')
    parser.add_argument('--older', metavar='PROGRAM', help='release 0.8.1')
    parser.add_argument('--lists', type=int, default=10000, help='random lists')
    given = parser.parse_args()
    original, ours = os.path.abspath(given.original), os.path.abspath(given.ours)
    parts = {
        'names of each byte': lambda: names_of_each_byte(original, ours),
        'lists that one makes and the other checks': lambda: random_lists(original, ours, given.lists),
        'lists that are cut': lambda: cut_lists(original, ours),
    }
    if given.older:
        parts['lists of 0.8.1'] = lambda: older_lists(os.path.abspath(given.older), ours, given.lists // 5)
    report = Report()
    for name, part in parts.items():
        if given.only in name:
            with tempfile.TemporaryDirectory() as workdir, contextlib.chdir(workdir):
                report.attempt(name, part)
    return report.end()
