"""The files that the scenarios of checks/failing_calls read, and the correct output for them.

The correct output is derived from docs/XXHSUM.md and the digests of Debian's xxhsum: none of it is our program's
output."""
import os
import re
import subprocess
from typing import Callable, Collection, NamedTuple, Optional, Sequence

from checks.lib.tools import write

from .. import messages
from ..runs import json_object

HELLO = b'hello'
# Three full reads of a file, and a part of one.
LONG = bytes(at * 7 % 251 for at in range(400_001))
FILES = {
    'a': HELLO,
    'e': b'',
    'b c': b'world',
    'long': LONG,
    'piped': LONG[:40_000],
    'same': HELLO,
    'd/inner': HELLO,
    'd/other': b'world',
    'd/sub/deep': b'deep',
    'd/sub/last': b'',
    'one/only': b'only',
}
FLAGS = {'32': '-H0', '64': '-H1', '128': '-H2', '3': '-H3'}
TOO_LONG = 'File name too long'
WRITE_FAILED, NO_MEMORY = messages.WRITE_FAILED.decode(), messages.NO_MEMORY.decode()


class Fault(NamedTuple):
    """A call that the system refuses: `open` or `read` of a file, `folder` for its names, or `look-up` of a name; with
    the name, the reason, and how many bytes of the file the reads before returned."""

    step: str
    name: str
    why: str
    given: int = 0


class Outcome(NamedTuple):
    out: str
    err: str
    status: int


class World:
    """A folder with the files, and two names below `d` that are skipped: a link, and a pipe without a writer."""

    def __init__(self, folder):
        self.folder, self.known = folder, {}
        for name, text in FILES.items():
            self.write(name, text)
        os.symlink('../a', self.path('d/link'))
        os.mkfifo(self.path('d/pipe'))

    def path(self, name):
        return os.path.join(self.folder, name)

    def write(self, name, text):
        write(self.path(name), text)

    def digest(self, name, algorithm='64'):
        """The digits of Debian's xxhsum."""
        if (name, algorithm) not in self.known:
            done = subprocess.run(
                ['xxhsum', FLAGS[algorithm], self.path(name)], capture_output=True, text=True, check=True
            )
            self.known[name, algorithm] = re.search(r'(?:^| = |XXH3_)([0-9a-f]{8,32})(?=  |$)', done.stdout, re.M)[1]
        return self.known[name, algorithm]

    def line(self, name, algorithm='64'):
        return f'{"XXH3_" if algorithm == "3" else ""}{self.digest(name, algorithm)}  {name}\n'


# ---- digests of names


def refusal(name, fault):
    """The message for a file or a directory that could not be opened or read."""
    message = messages.unread if fault.step == 'read' else messages.unopened
    return message(name, fault.why).decode()


def trouble(world, name, fault):
    """The message for a name that has no digest, or nothing."""
    if fault and fault.name == name:
        return refusal(name, fault)
    if os.path.isdir(world.path(name)):
        return messages.is_folder(name).decode()
    if not os.path.exists(world.path(name)):
        return refusal(name, Fault('open', name, messages.MISSING))
    return ''


def digests(
    world: World,
    names: Sequence[str],
    fault: Optional[Fault] = None,
    form: Callable[[World, str], str] = World.line,
    before: str = '',
) -> Outcome:
    """A line of each name that has a digest, and a message for each other one."""
    troubles = {name: trouble(world, name, fault) for name in names}
    out = ''.join(form(world, name) for name in names if not troubles[name])
    err = before + ''.join(troubles[name] for name in names)
    return Outcome(out, err, 1 if err else 0)


def of_input(world: World, name: str, fault: Optional[Fault], algorithm: str = '64') -> Outcome:
    if fault:
        return Outcome('', messages.unread('stdin', fault.why, end='.').decode(), 1)
    return Outcome(world.line(name, algorithm).replace(f'  {name}', '  stdin'), '', 0)


# ---- folders


def walked(world, names, fault):
    """The files below these names, in order, and the messages on the way."""
    files, err = [], ''
    for name in names:
        if fault and fault.step in ('folder', 'look-up') and fault.name in (name, name + '/'):
            err += refusal(name, fault)
        elif os.path.isdir(world.path(name)):
            below = [f'{name}/{it}' for it in sorted(os.listdir(world.path(name)), key=os.fsencode)]
            plain = [
                it
                for it in below
                if not os.path.islink(world.path(it))
                and not it.endswith('/pipe')
                or fault
                and fault.step == 'look-up'
                and fault.name == it
            ]
            more, message = walked(world, plain, fault)
            files, err = files + more, err + message
        else:
            files.append(name)
    return files, err


def digests_below(world: World, names: Sequence[str], fault: Optional[Fault] = None) -> Outcome:
    files, err = walked(world, names, fault)
    return digests(world, files, fault, before=err)


# ---- checks of lists


class Line(NamedTuple):
    """A line of a list: its text, its file, if any, and whether that has the value."""

    text: str
    name: str = ''
    is_good: bool = True


def good(world: World, name: str) -> 'Line':
    return Line(world.line(name), name)


def wrong(name: str) -> 'Line':
    return Line(f'{"0" * 16}  {name}\n', name, False)


JUNK = Line('junk\n')
# Some of them are longer than the read buffer of lists.
COMMENT = Line('#' + 'x' * 20_000 + '\n')


def verdict(world, listed, number, line, fault):
    """The output for a well-formed line."""
    why = ''
    if fault and fault.name == line.name:
        why = fault.why
    elif not os.path.exists(world.path(line.name)):
        why = TOO_LONG if len(line.name) > 4095 else messages.MISSING
    if why:
        return messages.unread_listed(listed, number, line.name, why).decode()
    return f'{line.name}: {"OK" if line.is_good else "FAILED"}\n'


def checked(
    world: World, listed: str, lines: Sequence['Line'], fault: Optional[Fault] = None, warns: bool = False
) -> Outcome:
    """The check of one list, as far as it could be read."""
    if fault and fault.name == listed and fault.step == 'open':
        return Outcome('', messages.unopened(listed, fault.why, end='').decode(), 1)
    is_cut = bool(fault) and fault.name == listed
    given = lines[: ''.join(line.text for line in lines)[: fault.given].count('\n')] if is_cut else lines
    verdicts, err = [], ''
    for number, line in enumerate(given, 1):
        if line.name:
            verdicts.append(verdict(world, listed, number, line, fault))
        elif warns and line != COMMENT:
            err += messages.in_line(listed, number).decode()
    malformed = sum(not line.name and line != COMMENT for line in given)
    if is_cut:
        err += messages.in_line(listed, len(given) + 1, fault.why).decode()
    if not verdicts:
        # A list that broke off before its first line is not a list without a line.
        is_known = not is_cut or malformed
        return Outcome('', err + (messages.no_proper_line(listed).decode() if is_known else ''), 1)
    unread = sum('Could not' in it for it in verdicts)
    failed = sum(it.endswith('FAILED\n') for it in verdicts)
    out = ''.join(verdicts) + messages.counts(malformed, unread, failed).decode()
    return Outcome(out, err, 1 if unread or failed or is_cut else 0)


def merged_check(world: World, listed: str, lines: Sequence['Line'], fault: Optional[Fault] = None) -> Outcome:
    """The content of one pipe of both streams, if every malformed line is reported: each message at its place, and
    the counts after the last line."""
    given = lines[: ''.join(line.text for line in lines)[: fault.given].count('\n')] if fault else lines
    both = [
        verdict(world, listed, number, line, None) if line.name else messages.in_line(listed, number).decode()
        for number, line in enumerate(given, 1)
    ]
    found = checked(world, listed, lines, fault, warns=True)
    if not any(line.name for line in given):
        ends = found.err.splitlines(keepends=True)[len(both) :]
        return Outcome(''.join(both + ends), '', found.status)
    break_of = found.err.splitlines(keepends=True)[-1:] if fault else []
    counts = found.out.splitlines(keepends=True)[sum(bool(line.name) for line in given) :]
    return Outcome(''.join([*both, *break_of, *counts]), '', found.status)


def all_checked(
    world: World, lists: dict[str, list['Line']], fault: Optional[Fault] = None, warns: bool = False
) -> Outcome:
    each = [checked(world, listed, lines, fault, warns) for listed, lines in lists.items()]
    return Outcome(''.join(it.out for it in each), ''.join(it.err for it in each), max(it.status for it in each))


# ---- lists of names


def digests_listed(world: World, lists: dict[str, list[str]], fault: Optional[Fault] = None) -> Outcome:
    """The digests of the names in lists."""
    err = unread_list(lists, fault)
    return Outcome('', err, 1) if err else digests(world, [name for names in lists.values() for name in names], fault)


def unread_list(lists: Collection[str], fault: Optional[Fault]) -> str:
    """The message for a list of names, or one to audit, that could not be opened or read."""
    if not fault or fault.name not in lists:
        return ''
    message = messages.unread if fault.step == 'read' else messages.unopened
    return message(fault.name, fault.why, end='.').decode()


# ---- audits


def classes(entries, found):
    """The class of each line and name, in the order of the report: (the name, the words, the other name, its class)."""
    by_name = sorted(set(entries) & set(found), key=os.fsencode)
    settled = [(name, 'same' if entries[name] == found[name] else 'changed') for name in by_name]
    gone = sorted(((entries[name], name) for name in set(entries) - set(found)))
    come = sorted(((found[name], name) for name in set(found) - set(entries)))
    moved = []
    for value, name in come:
        old = next((pair for pair in gone if pair[0] == value), None)
        copied = next((it for it, state in settled if state == 'same' and found[it] == value), None)
        if old:
            gone.remove(old)
            moved.append((name, 'moved from', old[1], 'moved'))
        elif copied:
            moved.append((name, 'copy of', copied, 'copied'))
        else:
            moved.append((name, 'new', '', 'new'))
    moved += [(name, 'missing', '', 'missing') for _, name in gone]
    return [(name, state, '', state) for name, state in settled] + sorted(moved)


def objects(results, entries, found):
    """The results as JSON, which has no counts."""
    digests = {name: value.encode() for name, value in entries.items()}
    listed = {'new': '', 'unreadable': ''}
    return b''.join(
        json_object(
            state,
            name.encode(),
            other.encode(),
            digests.get(listed.get(state, other or name), b''),
            found.get(name, '').encode(),
        )
        for name, _, other, state in results
    ).decode()


def audited(
    world: World,
    listed: str,
    entries: dict[str, str],
    names: Sequence[str],
    fault: Optional[Fault] = None,
    before: str = '',
    lost: Sequence[str] = (),
    in_json: bool = False,
) -> Outcome:
    """The audit of names against a list with these digests. A name with no digest is unreadable; so are directories
    that could not be read, and the lines of names below them."""
    err = unread_list({listed: []}, fault)
    if err:
        return Outcome('', before + err, 1)
    unread = {name: trouble(world, name, fault) for name in sorted(names, key=os.fsencode)}
    found = {name: world.digest(name) for name in names if not unread[name]}
    hidden = [name for name in entries if name not in names and any(f'{name}/'.startswith(f'{it}/') for it in lost)]
    unreadable = [*lost, *sorted([*hidden, *(name for name in unread if unread[name])], key=os.fsencode)]
    readable = {name: value for name, value in entries.items() if name not in unreadable}
    results = classes(readable, found) + [(name, 'unreadable', '', 'unreadable') for name in unreadable]
    states = ('same', 'changed', 'moved', 'copied', 'new', 'missing', 'unreadable')
    counts = ', '.join(f'{sum(state == it for *_, state in results)} {it}' for it in states)
    is_well = all(state == 'same' for *_, state in results)
    lines = ''.join(f'{name}: {text} {other}'.rstrip() + '\n' for name, text, other, _ in results) + counts + '\n'
    return Outcome(
        objects(results, entries, found) if in_json else lines, before + ''.join(unread.values()), 0 if is_well else 1
    )


def audited_below(
    world: World, listed: str, entries: dict[str, str], names: Sequence[str], fault: Optional[Fault] = None
) -> Outcome:
    """The audit of the files below directories."""
    files, err = walked(world, names, fault)
    return audited(world, listed, entries, files, fault, err, [fault.name.rstrip('/')] if err else [])
