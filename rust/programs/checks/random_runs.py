"""Draws runs of both programs, and compares two builds: standard output, standard error and the status."""
import os
import random
import subprocess

from checks.lib.report import check
from checks.lib.tools import write

SECONDS = 30
# Only the version of these programs has this, in a line that is also in the help and in usage errors.
WRITTEN_BY = b' compiled by rustc from proved source,'
SHOWN = 300
STATES = {
    '32': b'{"buffer":[72,101,108,108,111,44,32,119,111,114,108,100,33,0,0,0],"buffer_usage":14,'
    b'"core":{"v1":606290984,"v2":2246822519,"v3":0,"v4":1640531535},"seed":0,"total_len":14}',
    '64': b'{"buffer":[72,101,108,108,111,44,32,119,111,114,108,100,33' + b',0' * 19 + b'],"buffer_usage":14,'
    b'"core":{"v1":6983438078262162902,"v2":14029467366897019727,"v3":0,"v4":7046029288634856825},'
    b'"seed":0,"total_len":14}',
}
# Each file with its maximum length, and other names: directories, links, and missing files.
FILES = {
    b'a': 300,
    b'b': 5000,
    b'sp ace': 3,
    b'new\nline': 1,
    b'back\\slash': 100,
    b'd/e': 300,
    b'd/f': 1,
    b'd/deep/g': 40,
    b'\xff\xfe': 9,
    b'empty': 0,
    b'-dash': 20,
    b'big': 300_000,
    b'\xc3\xa9': 65,
    b'cr\r': 8,
    b'n' * 255: 240,
}
NAMES = [
    *FILES,
    b'nowhere',
    b'd',
    b'./a',
    b'link',
    b'loop',
    b'broken',
    b'd/',
    b'',
    b'a/b',
    b'x' * 256,
    b'd//' * 300 + b'e',
]
LINKS = ((b'a', b'link'), (b'loop', b'loop'), (b'nothing', b'broken'))
OPTIONS = [
    word.encode()
    for word in '''-c --check -q --quiet --status --strict -w --warn --tag --little-endian -H0 -H1 -H2 -H3 -H32
    -H64 -H128 -H9 --ignore-missing -z --zero -r --recursive --audit --files-from --filelist --files0-from - --
    -h --help -V
    --version -b -i3 -B4K -qc -cq -k --nope --binary -H99999999999 -H'''.split()
]
STYLES = (
    [b'-H0'],
    [b'-H1'],
    [b'-H2'],
    [b'-H3'],
    [b'--tag', b'-H3'],
    [b'--tag', b'-H0', b'--little-endian'],
    [b'--little-endian'],
)
CALLED = (b'xxhsum', b'xxh32sum', b'/x/xxh128sum', b'xxh3sum', b'xxh64sum')
NUMBERS = (b'0', b'1', b'4294967295', b'4294967296', b'+1', b'x', b'18446744073709551615', b'99999999999999999999')
PIECES = (
    b' ',
    b'\n',
    b'\\',
    b'"',
    b'[',
    b']',
    b'{',
    b'}',
    b',',
    b':',
    b'1e5',
    b'1e999',
    b'-0',
    b'-',
    b'0',
    b'.5',
    b'"a":1,',
    b'\\u0062',
    b'null',
    b'true',
    b'[[]],',
    b'\r',
    b'XXH3_',
    b'_LE',
    b'(',
    b') = ',
    b'18446744073709551616',
    b'\xff',
    b'"x":"\\ud800",',
    b'"x":1E400,',
    b'"seed":0,',
    b'\0',
    b'\t',
)


def mutated(rng, text):
    """A text with up to four changes."""
    text = bytearray(text)
    for _ in range(rng.choice((0, 1, 1, 2, 4))):
        at, choice = rng.randrange(len(text) + 1), rng.randrange(4)
        if choice == 0:
            text[at:at] = rng.choice(PIECES)
        elif choice == 1:
            text[at : at + 1] = bytes([rng.randrange(256)])
        elif choice == 2:
            del text[at : at + rng.randrange(1, 5)]
        elif text:
            begin = rng.randrange(len(text))
            text[at:at] = text[begin : begin + rng.randrange(1, 30)]
    return bytes(text)


def lay_out(rng, workdir):
    """Files, directories and links, and a list of digests in each style by the program of the list."""
    for name, most in FILES.items():
        write(os.path.join(workdir, name), rng.randbytes(rng.randrange(most + 1)))
    for target, name in LINKS:
        os.symlink(target, os.path.join(workdir, name))


def lists_of(program, workdir):
    names = [name for name in FILES if name != b'-dash']
    return [
        subprocess.run([program, *style, *names], stdout=subprocess.PIPE, stderr=subprocess.DEVNULL, cwd=workdir).stdout
        for style in STYLES
    ]


def random_xxh(rng):
    """Arguments and input of `xxh`."""
    bits = rng.choice(('32', '64'))
    args = rng.choice(
        (
            [b'resume', rng.choice((b'32', b'64')), mutated(rng, STATES[bits]).replace(b'\0', b'')],
            [b'resume', bits.encode(), mutated(rng, STATES[bits]).replace(b'\0', b'')],
            [rng.choice((b'hash', b'save')), rng.choice((b'32', b'64', b'3-64', b'3-128', b'9')), rng.choice(NUMBERS)],
            [b'blocks', rng.choice((b'1', b'3', b'100', b'4096', b'0'))],
        )
    )
    return args, rng.randbytes(rng.choice((0, 1, 10, 240, 300, 5000)))


def random_list(rng, lists):
    lines = rng.choice(lists).splitlines(True)[rng.randrange(3) :] + rng.choice(([], [b'# x\n']))
    text = mutated(rng, b''.join(lines))
    return text + (b'x' * rng.choice((32766, 32767, 32768, 70000)) + b'\n' if rng.random() < 0.2 else b'')


def random_xxhsum(rng, lists, workdir):
    """Arguments and input of `xxhsum`. Writes two lists that the arguments may refer to."""
    listed = random_list(rng, lists)
    between = rng.choice((b'\n', b'\n', b'\0', b'\0', b'a\0b\n'))
    for name, text in ((b'list', listed), (b'names', mutated(rng, between.join(rng.sample(NAMES, 5))))):
        write(os.path.join(workdir, name), text)
    args = rng.sample(OPTIONS, rng.choice((0, 1, 1, 2, 3)))
    if rng.random() < 0.5:
        args.insert(
            0, rng.choice((b'-c', b'--audit', b'--check', b'--files-from', b'--files0-from', b'--filelist', b'-r'))
        )
    # Each read of a directory fails, so it is a list that can be opened and not read.
    args += [rng.choice((b'list', b'list', b'names', b'nowhere', b'd'))] * rng.randrange(2)
    return args + rng.sample(NAMES, rng.choice((0, 0, 1, 3, 6))), listed if rng.random() < 0.5 else b''


def did(program, name, args, given, workdir):
    done = subprocess.run(
        [name, *args], executable=program, input=given, capture_output=True, cwd=workdir, timeout=SECONDS
    )
    check(b'panicked' not in done.stderr and done.returncode >= 0, f'{args}: {done.returncode}, {done.stderr[:SHOWN]}')
    return done.stdout.replace(WRITTEN_BY, b''), done.stderr.replace(WRITTEN_BY, b''), done.returncode


def compare(ours, proved, rng, name, args, given, workdir):
    found, expected = (did(program, name, args, given, workdir) for program in (ours, proved))
    check(
        found == expected,
        f'{name} {args} {given[:SHOWN]}: {[part if isinstance(part, int) else part[:SHOWN] for part in found]}, '
        f'and the proved one {[part if isinstance(part, int) else part[:SHOWN] for part in expected]}',
    )
    return found[2]


def compare_runs(ours: dict[str, str], proved: dict[str, str], count: int, seed: int, workdir: str) -> str:
    """Runs both programs this many times; they have the names 'xxh' and 'xxhsum' in both dictionaries."""
    rng, folder = random.Random(seed), os.fsencode(workdir)
    lay_out(rng, folder)
    lists, statuses = lists_of(proved['xxhsum'], folder), {}
    for _ in range(count):
        if rng.random() < 0.3:
            name, called, (args, given) = 'xxh', b'xxh', random_xxh(rng)
        else:
            name, called, (args, given) = 'xxhsum', rng.choice(CALLED), random_xxhsum(rng, lists, folder)
        status = compare(ours[name], proved[name], rng, called, args, given, folder)
        statuses[name, status] = statuses.get((name, status), 0) + 1
    check(count < 100 or len(statuses) == 4, f'only these statuses came: {statuses}')
    return ', '.join(f'{count} of {name} with {status}' for (name, status), count in sorted(statuses.items()))


# ---- JSON ----

CHARACTERS = (
    'a',
    'é',
    '\\n',
    '\\"',
    '\\\\',
    '\\/',
    '\\b',
    '\\f',
    '\\r',
    '\\t',
    '\\u0041',
    '\\u00e9',
    '\\ud83d\\ude00',
    '\\ud800',
    '\\udc00',
    '\\ud800\\u0041',
    '\\ud800x',
    '\\x',
    '\\u12',
    '\\U0041',
    '\t',
    '\x7f',
    '𝄞',
    '\\u0000',
    '\\ud800\\ud800',
    '\\',
)
WHOLE = ('0', '1', '12', '00', '01', '18446744073709551615', '18446744073709551616', '9' * 20, '9' * 309, '9' * 400, '')
FRACTIONS = ('', '', '', '.', '.5', '.0', '.' + '0' * 30)
EXPONENTS = (
    '',
    '',
    '',
    'e1',
    'E+5',
    'e-3',
    'e',
    'e+',
    'e999',
    'E-999',
    'e308',
    'e309',
    'e' + '9' * 20,
    'e-' + '9' * 20,
)
SPACES = ('', '', '', '', ' ', '\n', '\r\t', '\x0b', '\u00a0', '\ufeff')
MEMBERS = ('"seed"', '"s\\u0065ed"', '"total_len"', '"core"', '"buffer"')
RENAMED = ('s\\u0065ed', 'se\\u0065d', 'c\\u006Fre', 'v\\u0031', 'Seed', 'buff\\u0065r', 'core')


def text_of(rng):
    return '"' + ''.join(rng.choice(CHARACTERS) for _ in range(rng.randrange(4))) + '"'


def number_of(rng):
    return rng.choice(('', '-')) + rng.choice(WHOLE) + rng.choice(FRACTIONS) + rng.choice(EXPONENTS)


def value_of(rng, depth=0):
    choice = rng.randrange(8 if depth < 4 else 5)
    space = lambda: rng.choice(SPACES)
    if choice < 2:
        return number_of(rng)
    if choice == 2:
        return text_of(rng)
    if choice == 3:
        return rng.choice(('null', 'true', 'false', 'nul', 'True', 'nulll', 'nan', 'Infinity'))
    if choice == 4:
        deep = rng.choice((0, 1, 3, 125, 126, 127, 128, 129))
        return '[' * deep + ']' * deep
    if choice < 7:
        items = [space() + value_of(rng, depth + 1) + space() for _ in range(rng.randrange(4))]
        return '[' + ','.join(items) + rng.choice(('', '', '', ',')) + ']'
    members = [
        space() + text_of(rng) + space() + rng.choice((':', ':', ':', '')) + value_of(rng, depth + 1)
        for _ in range(rng.randrange(4))
    ]
    return '{' + ','.join(members) + '}'


def random_json(rng, state):
    choice = rng.randrange(6)
    if choice < 2:
        name = text_of(rng) if choice else rng.choice(MEMBERS)
        return f'{state[:-1]},{name}:{value_of(rng)}}}'
    if choice == 2:
        return state.replace('14', number_of(rng), 1)
    if choice == 3:
        between = rng.choice(SPACES)
        return state.replace(',', between + ',').replace(':', ':' + rng.choice(SPACES)) + rng.choice(SPACES)
    if choice == 4:
        return state.replace(rng.choice(('seed', 'core', 'v1', 'buffer')), rng.choice(RENAMED), 1)
    at = rng.randrange(len(state))
    return (
        state[:at]
        + rng.choice(('"', '[', ']', '{', '}', ',', ':', '0', '-', '.', 'e', ' ', '1', '\\', ''))
        + state[at + rng.randrange(2) :]
    )


def compare_json(ours: dict[str, str], proved: dict[str, str], count: int, seed: int, workdir: str) -> str:
    """This many texts for `xxh resume`."""
    rng, statuses = random.Random(seed), {}
    for _ in range(count):
        bits = rng.choice(('32', '64'))
        text = random_json(rng, STATES[bits].decode())
        args = [b'resume', rng.choice((bits, bits, '32')).encode(), text.encode().replace(b'\0', b'')]
        status = compare(ours['xxh'], proved['xxh'], rng, b'xxh', args, b'', workdir)
        statuses[status] = statuses.get(status, 0) + 1
    check(statuses.keys() == {0, 2}, f'only these statuses came: {statuses}')
    return ', '.join(f'{count} with {status}' for status, count in sorted(statuses.items()))
