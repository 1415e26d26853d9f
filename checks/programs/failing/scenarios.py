"""The scenarios of checks/failing_calls: the arguments of a run, its streams, and the expected result if one step
fails."""
import os
from typing import Any, Callable, NamedTuple, Optional

from .. import messages
from . import worlds
from .worlds import COMMENT, JUNK, Fault, Outcome, World, good, wrong

INPUT = 'standard input'
# Each read of it fails.
CLOSED = Fault('read', INPUT, 'Bad file descriptor')
GREETING = b'Hello, world!\0'
# XXH64 of the greeting: up to 31 bytes are buffered, the accumulators are those of the seed 0.
SAVED = (
    '{"buffer":[72,101,108,108,111,44,32,119,111,114,108,100,33' + ',0' * 19 + '],"buffer_usage":14,'
    '"core":{"v1":6983438078262162902,"v2":14029467366897019727,"v3":0,"v4":7046029288634856825},'
    '"seed":0,"total_len":14}'
)
BLOCK = 100_000
# Names whose lines fill the buffer of the output several times.
MANY = ['d/' + './' * count + 'inner' for count in range(120)]


class Scenario(NamedTuple):
    """A run, and its outcome by what failed. `given` is the file that is its input, or `pipe`, `closed` or nothing.
    `out` is its output: a pipe of its own, one for both streams, or one that can't be written."""

    name: str
    args: tuple
    outcome: Optional[Callable]
    given: str = ''
    program: str = 'xxhsum'
    out: str = 'pipe'


def plainly(out='', err='', status=0):
    """The outcome of a run that has nothing to open or read."""
    return lambda fault: Outcome(out, err, status)


def of_names(world):
    """Digests of files by name."""

    def scenario(name, args, names, form=worlds.World.line):
        return Scenario(name, (*args, *names), lambda fault: worlds.digests(world, names, fault, form))

    def of(algorithm):
        return lambda it, name: it.line(name, algorithm)

    return [
        scenario('one file', (), ['a']),
        scenario('a long file', (), ['long']),
        scenario('files, one of them missing, and a folder', (), ['a', 'gone', 'b c', 'd', 'e']),
        scenario('missing files alone', (), ['gone', 'away']),
        scenario('quiet', ('-q',), ['a', 'gone']),
        scenario('status alone', ('--status',), ['a', 'e']),
        scenario('XXH32', ('-H0',), ['a', 'long'], of('32')),
        scenario('XXH3', ('-H3',), ['a', 'long'], of('3')),
        scenario('XXH128', ('-H2',), ['a', 'long'], of('128')),
        scenario('tagged lines', ('--tag',), ['a', 'e'], lambda it, name: f'XXH64 ({name}) = {it.digest(name)}\n'),
        scenario(
            'little endian',
            ('--little-endian',),
            ['a', 'e'],
            lambda it, name: f'{bytes.fromhex(it.digest(name))[::-1].hex()}  {name}\n',
        ),
        scenario('lines that NULs end', ('-z',), ['a', 'b c'], lambda it, name: it.line(name)[:-1] + '\0'),
        scenario('names after --', ('--',), ['a', 'e']),
        scenario('lines that fill the output several times', (), MANY),
        scenario('messages among many lines', (), [*MANY[:60], 'gone', *MANY[60:], 'd', 'a']),
    ]


def of_input(world):
    def scenario(name, args, given, algorithm='64'):
        file = given if given != 'pipe' else 'piped'
        return Scenario(name, args, lambda fault: worlds.of_input(world, file, fault, algorithm), given)

    return [
        scenario('input', (), 'a'),
        scenario('a long input', ('-H3',), 'long', '3'),
        scenario('input by -', ('-H2', '-'), 'long', '128'),
        scenario('input from a pipe', (), 'pipe'),
        Scenario('closed input', (), lambda fault: worlds.of_input(world, 'a', fault or CLOSED), 'closed'),
    ]


def lists_to_check(world):
    lists = {
        'good': [good(world, 'a'), good(world, 'long'), good(world, 'e')],
        'mixed': [JUNK, good(world, 'same'), wrong('d/other'), wrong('gone'), good(world, 'd/inner')],
        'junk': [JUNK, JUNK],
        'large': [COMMENT, good(world, 'a'), COMMENT, COMMENT, good(world, 'b c'), COMMENT, COMMENT, wrong('e')],
    }
    for name, lines in lists.items():
        world.write(name, ''.join(line.text for line in lines).encode())
    return lists


def of_checks(world):
    lists = lists_to_check(world)

    def scenario(name, args, names, **more):
        chosen = {it: lists[it] for it in names}
        return Scenario(name, (*args, *names), lambda fault: worlds.all_checked(world, chosen, fault, **more))

    def of_stdin(fault):
        return worlds.checked(world, 'stdin', lists['mixed'], of_list_on_stdin(fault))

    def silently(fault):
        return worlds.all_checked(world, {'good': lists['good']}, fault)._replace(out='')

    def missing_aside(fault):
        """A list of which no file was verified has a message."""
        found = worlds.checked(world, 'good', lists['good'], fault)
        is_opened = not fault or (fault.step, fault.name) != ('open', 'good')
        return (
            found
            if 'OK' in found.out or not is_opened
            else found._replace(out=found.out + messages.none_verified('good').decode())
        )

    return [
        scenario('a good list', ('-c',), ['good']),
        scenario('a list of all kinds', ('-c',), ['mixed']),
        scenario('a list of all kinds, with warnings', ('-cw',), ['mixed'], warns=True),
        scenario('a list with no well-formed line', ('-cw',), ['junk'], warns=True),
        scenario('several lists', ('-c',), ['good', 'mixed', 'junk']),
        scenario('a large list', ('-c',), ['large']),
        Scenario('a list of the input', ('-c',), of_stdin, 'mixed'),
        Scenario('a good list, and the status alone', ('-c', '--status', 'good'), silently),
        Scenario('a good list, missing files aside', ('-c', '--ignore-missing', 'good'), missing_aside),
    ]


def of_one_pipe(world):
    """Both streams are one pipe: buffered output comes before any message, also if a list ends early or memory runs
    out. The options take most of the memory that a program begins with, and the long name more than is left."""
    args = ('-w',) * 250 + ('-c',)
    lists = {
        'deep': [
            good(world, 'a'),
            good(world, 'e'),
            JUNK,
            good(world, 'b c'),
            wrong('x' * 30_000),
            good(world, 'same'),
            *[good(world, 'd/inner')] * 1600,
            wrong('e'),
        ],
        'junk only': [JUNK, JUNK],
    }
    for name, lines in lists.items():
        world.write(name, ''.join(line.text for line in lines).encode())

    def scenario(name, listed):
        return Scenario(
            name, (*args, listed), lambda fault: worlds.merged_check(world, listed, lists[listed], fault), out='merged'
        )

    def both(fault):
        first = worlds.merged_check(world, 'deep', lists['deep'], fault and fault.name == 'deep' and fault or None)
        second = worlds.merged_check(
            world, 'junk only', lists['junk only'], fault and fault.name != 'deep' and fault or None
        )
        return Outcome(first.out + second.out, '', 1)

    return [
        scenario('a list, both streams one pipe', 'deep'),
        Scenario('two lists, both streams one pipe', (*args, 'deep', 'junk only'), both, out='merged'),
    ]


def of_list_on_stdin(fault):
    """The fault, which names standard input as the message of a list does."""
    return fault and fault._replace(name='stdin' if fault.name == INPUT else fault.name)


def of_folders(world):
    def below(name, *names):
        return Scenario(name, ('-r', *names), lambda fault: worlds.digests_below(world, [*names], fault))

    return [
        below('files below a folder', 'd'),
        below('files below folders, and a file', 'one', 'a', 'd'),
        below('a missing name among folders', 'gone', 'one'),
    ]


def of_lists_of_names(world):
    listed = {'listed': ['a', 'long', 'gone'], 'more': ['e', 'd/inner']}
    for name, names in listed.items():
        world.write(name, ''.join(f'{it}\n' for it in names).encode())
    world.write('ended', b''.join(it.encode() + b'\0' for it in listed['listed']))

    def lists(name, args, chosen):
        return Scenario(name, (*args, *chosen), lambda fault: worlds.digests_listed(world, chosen, fault))

    def names_of_input(fault):
        return worlds.digests_listed(world, {'stdin': listed['listed']}, of_list_on_stdin(fault))

    return [
        lists('names of a list', ('--files-from',), {'listed': listed['listed']}),
        lists('names of two lists', ('--files-from',), listed),
        lists('names that NULs end', ('--files0-from',), {'ended': listed['listed']}),
        Scenario('names of the input', ('--files-from',), names_of_input, 'listed'),
    ]


def of_audits(world):
    digests = {name: world.digest(name) for name in ('a', 'e')}
    entries = {**digests, 'b c': '0' * 16, 'old': world.digest('long'), 'lost': '1' * 16}
    names = ['a', 'e', 'b c', 'long', 'd/inner', 'd/sub/deep']
    below = {name: world.digest(name) for name in ('d/inner', 'd/other', 'd/sub/deep', 'd/sub/last')}
    for name, contents in (('lines', entries), ('below', below)):
        world.write(name, ''.join(f'{value}  {it}\n' for it, value in contents.items()).encode())
    world.write('names', b''.join(it.encode() + b'\0' for it in names))

    def audit(name, listed, lines, chosen):
        args = ('--audit', listed, *chosen)
        return Scenario(name, args, lambda fault: worlds.audited(world, listed, lines, chosen, fault))

    def listed_audit(fault):
        message = worlds.unread_list({'names': []}, fault)
        return Outcome('', message, 1) if message else worlds.audited(world, 'lines', entries, names, fault)

    return [
        audit('an audit', 'lines', entries, names),
        audit('an audit of what stayed', 'below', below, list(below)),
        Scenario(
            'an audit below a folder',
            ('-r', '--audit', 'below', 'd'),
            lambda fault: worlds.audited_below(world, 'below', below, ['d'], fault),
        ),
        Scenario(
            'an audit as JSON',
            ('--audit', '--format=json', 'lines', *names),
            lambda fault: worlds.audited(world, 'lines', entries, names, fault, in_json=True),
        ),
        Scenario('an audit of names that NULs end', ('--audit', '--files0-from', 'lines', 'names'), listed_audit),
    ]


def of_streams(world):
    """Output that can't be written, and runs that only report."""
    names = ['a', 'gone', 'e']

    def scenario(name, out):
        return Scenario(name, tuple(names), lambda fault: worlds.digests(world, names, fault), out=out)

    return [
        scenario('closed output', 'closed'),
        scenario('a full disk', 'full'),
        scenario('a pipe that nobody reads', 'broken'),
        Scenario('a wrong option', ('-x', 'a'), None),
        Scenario('the version', ('-V',), None),
        Scenario('the help', ('--help',), None),
    ]


def of_xxh(world):
    def failing(out, fault, before=''):
        return Outcome(before, f'xxh: read failed: {fault.why}\n', 1) if fault else Outcome(out, '', 0)

    def hashed(algorithm, name, given):
        line = world.digest('piped' if given == 'pipe' else given, name) + '\n'
        return Scenario(
            f'xxh hash {algorithm}, of {given}', ('hash', algorithm), lambda fault: failing(line, fault), given, 'xxh'
        )

    def blocks(fault):
        parts = [worlds.LONG[at : at + BLOCK] for at in range(0, len(worlds.LONG), BLOCK)]
        for at, part in enumerate(parts):
            world.write(f'part-{at}', part)
        lines = [f'{at * BLOCK:016x} {world.digest(f"part-{at}", "128")}\n' for at in range(len(parts))]
        whole = fault.given // BLOCK if fault else len(lines)
        return failing(''.join(lines), fault, ''.join(lines[:whole]))

    world.write('greeting', GREETING)
    world.write('both', GREETING + worlds.LONG)
    whole = world.digest('both') + '\n'
    usage = 'xxh: usage: xxh hash|save|resume 32|64|3-64|3-128 [SEED|JSON] or xxh blocks SIZE\n'
    return [
        *(
            hashed(*scenario)
            for scenario in (
                ('32', '32', 'long'),
                ('64', '64', 'a'),
                ('64', '64', 'pipe'),
                ('3-64', '3', 'long'),
                ('3-128', '128', 'e'),
            )
        ),
        Scenario('xxh blocks', ('blocks', str(BLOCK)), blocks, 'long', 'xxh'),
        Scenario('xxh save', ('save', '64'), lambda fault: failing(SAVED + '\n', fault), 'greeting', 'xxh'),
        Scenario('xxh resume', ('resume', '64', SAVED), lambda fault: failing(whole, fault), 'long', 'xxh'),
        Scenario('xxh resume of no saved text', ('resume', '64', '{}'), plainly('', 'xxh: bad state\n', 2), 'a', 'xxh'),
        Scenario('xxh with no words', (), plainly('', usage, 2), '', 'xxh'),
        Scenario('xxh with a bad seed', ('hash', '32', 'x'), plainly('', 'xxh: bad seed\n', 2), 'a', 'xxh'),
    ]


GROUPS = (of_names, of_input, of_checks, of_one_pipe, of_folders, of_lists_of_names, of_audits, of_streams, of_xxh)


def input_of(scenario: Scenario, world: World) -> Any:
    """The run's standard input: a file, or a pipe that has its bytes before the run begins, so that each run has the
    same reads."""
    if scenario.given != 'pipe':
        return open(world.path(scenario.given) if scenario.given not in ('', 'closed') else os.devnull, 'rb')
    reads, writes = os.pipe()
    os.write(writes, worlds.FILES['piped'])
    os.close(writes)
    return os.fdopen(reads, 'rb')
