"""Compares the audit of `xxhsum` with a slow one, over a tree of many files.

    checks/xxhsum-audit OURS [--files N]

It creates a tree of files, with names of every byte that UTF-8 has, and their list; then it changes, moves, copies,
swaps, removes and adds some. The audit must report what a slow one reports, which compares the files' bytes: the class
of each line and each name, in the same order, and the counts. It must report the same for the list's lines in another
order, in the order of the arguments, for a list from three jobs, and for one whose names begin with `./`. Python's
`json` must read the same results, with their digests, from each object of `--format=json`. Bad input
must be reported, and nothing else. Seven planted reports, for example one that reports a moved file as new, must be
detected. The last line is "N passed, M failed"; the status is 1 if one failed. It prints how much memory the audit
took per line."""
import collections
import contextlib
import json
import os
import random
import re
import subprocess
import tempfile

from checks.lib import command
from checks.lib.report import Report
from checks.lib.tools import write

from .runs import escaped, found

SEED = 20261127
PLANTED = {
    'a moved file that is new': lambda text: re.sub(rb'(?m): moved from .*$', b': new', text, count=1),
    'a line that is told twice': lambda text: text.split(b'\n', 1)[0] + b'\n' + text,
    'a missing name that is left out': lambda text: re.sub(rb'(?m)^.*: missing\n', b'', text, count=1),
    'a changed file that is the same': lambda text: text.replace(b': changed\n', b': same\n', 1),
    'a copy that is new': lambda text: re.sub(rb'(?m): copy of .*$', b': new', text, count=1),
    'two names in another order': lambda text: re.sub(rb'([^\n]*\n)([^\n]*\n)([^\n]*\n)\Z', rb'\2\1\3', text),
    'a copy of itself': lambda text: re.sub(rb'(?m)^([^\n\\]*): copy of .*$', rb'\1: copy of \1', text, count=1),
}


# States in JSON that differ from the words.
STATES = {b'moved from': 'moved', b'copy of': 'copied'}


def peak_of(args):
    """The maximum memory of a run, in bytes, as reported by the system while it runs."""
    run_now, peak = subprocess.Popen(args, stdout=subprocess.DEVNULL), 0
    while run_now.poll() is None:
        with open(f'/proc/{run_now.pid}/status', encoding='ascii') as status:
            shown = re.search(r'VmHWM:\s*(\d+) kB', status.read())
        peak = int(shown.group(1)) * 1024 if shown else peak
    return peak


def name_of(number):
    """Names that together have each byte that a name of UTF-8 may have."""
    odd = (
        bytes(c for c in (number % 127 + 1, number // 127 % 127 + 1) if c not in b'/')
        + chr(0x80 + number % 0x700).encode()
    )
    return b'd%d/%d-' % (number % 97, number) + odd


def change(tree, rng):
    """The changes of the tree: a new one, by name."""
    names = sorted(tree)
    rng.shuffle(names)
    share = max(1, len(names) // 50)
    parts = iter([names[i * share : (i + 1) * share] for i in range(8)])
    after = dict(tree)
    for name in next(parts):
        after[name] = tree[name] + b' changed'
    for name in next(parts):
        del after[name]
    for name in next(parts):
        after[b'moved/' + name] = after.pop(name)
    for name in next(parts):
        after[name + b' copy'] = tree[name]
    for name in next(parts):
        after[b'moved/' + name] = after.pop(name)
        after[b'moved/' + name + b' twice'] = tree[name]
    for number, name in enumerate(next(parts)):
        after[b'new/' + name] = b'new %d' % number
    for one, other in zip(next(parts), next(parts)):
        after[one], after[other] = tree[other], tree[one]
    return after


def line_of(name, word, other=None):
    """A result as a line. A space after a colon in its first name is escaped."""
    mark = b'\\' if b': ' in name or any(c in name + (other or b'') for c in b'\\\n\r') else b''
    return (
        mark
        + escaped(name).replace(b': ', b':\\ ')
        + b': '
        + word
        + (b'' if other is None else b' ' + escaped(other))
        + b'\n'
    )


def slow_results(before, after):
    """The results of the audit, in order: names in both lists by name, then the others by name; and the count of each
    class."""
    both: list[tuple[bytes, ...]] = []
    others: list[tuple[bytes, ...]] = []
    counts, stayed = collections.Counter[str](), dict[bytes, bytes]()
    gone, come = collections.defaultdict(list), collections.defaultdict(list)
    for name, text in sorted(before.items()):
        if name not in after:
            gone[text].append(name)
            continue
        word = 'same' if after[name] == text else 'changed'
        if word == 'same':
            stayed.setdefault(text, name)
        counts[word] += 1
        both.append((name, word.encode()))
    for name, text in sorted(after.items()):
        if name not in before:
            come[text].append(name)
    for text in set(gone) | set(come):
        olds, news = gone[text], come[text]
        for old, new in zip(olds, news):
            others.append((new, b'moved from', old))
        counts['moved'] += min(len(olds), len(news))
        for new in news[len(olds) :]:
            first = stayed.get(text)
            others.append((new, b'new') if first is None else (new, b'copy of', first))
            counts['new' if first is None else 'copied'] += 1
        for old in olds[len(news) :]:
            others.append((old, b'missing'))
            counts['missing'] += 1
    return [*sorted(both), *sorted(others)], counts


def slow_audit(before, after):
    """The report of the audit, which ends with the counts."""
    results, counts = slow_results(before, after)
    classes = ('same', 'changed', 'moved', 'copied', 'new', 'missing', 'unreadable')
    last = ', '.join(f'{counts[word]} {word}' for word in classes).encode()
    return b''.join(line_of(*result) for result in results) + last + b'\n'


def slow_objects(before, after, digests):
    """The results of the audit, as the JSON objects mean them, from the digest of each text."""
    objects = []
    for name, word, *other in slow_results(before, after)[0]:
        state = STATES.get(word, word.decode())
        found = {'name': name, 'state': state, 'from': other[0] if other else None}
        found['listed'] = digests[before[other[0] if other else name]] if state != 'new' else None
        found['actual'] = digests[after[name]] if state != 'missing' else None
        objects.append({key: value for key, value in found.items() if value is not None})
    return objects


def lay_out(before, after):
    """Changes the files of the current folder."""
    for name in set(before) - set(after):
        os.unlink(name)
    for name, text in after.items():
        if before.get(name) != text:
            write(name, text)


class Audits:
    """The audits of a tree in the current folder, in order: each test uses what those before it have written."""

    def __init__(self, ours, count, report):
        self.ours, self.report, self.rng = ours, report, random.Random(SEED)
        self.before = {name_of(n): b'file %d' % (n // 3 * 3 if n % 100 < 3 else n) for n in range(count)}
        self.after = change(self.before, self.rng)
        self.names = [name + b'\0' for name in self.after]
        self.expected = slow_audit(self.before, self.after)
        # The lines of the list, and the result of the audit of the changed tree.
        self.lines, self.actual = [], None

    def record(self, name, condition, note=''):
        self.report.record(name, None if condition else 'it is otherwise', note)

    def audit(self, args, names=b''):
        return found(self.ours, ['--audit', *args], names)

    def audit_of(self, lines, names):
        """The result for a list of these lines."""
        write('other', b''.join(lines))
        return self.audit(['--files0-from', './other'], b''.join(names))

    def unchanged(self):
        lay_out({}, self.before)
        names = b''.join(name + b'\0' for name in self.before)
        text, *rest = found(self.ours, ['-H3', '--files0-from', '-'], names)
        self.lines = text.splitlines(keepends=True)
        is_complete = rest == [b'', 0] and len(self.lines) == len(self.before)
        self.record('the list of the tree, by names that end in NUL', is_complete)
        write('list', text)
        same = self.audit(['--files0-from', './list'], names)
        self.record('a tree that stayed', same == (slow_audit(self.before, self.before), b'', 0))

    def changed(self):
        lay_out(self.before, self.after)
        self.actual = self.audit(['--files0-from', './list'], b''.join(self.names))
        note = self.expected.splitlines()[-1].decode()
        self.record('a tree that was changed', self.actual == (self.expected, b'', 1), note)

    def as_json(self):
        names = b''.join(self.names)
        written = self.digests_of(self.before, self.lines)
        text = found(self.ours, ['-H3', '--files0-from', '-'], b''.join(name + b'\0' for name in self.after))[0]
        digests = {**written, **self.digests_of(self.after, text.splitlines())}
        out, *rest = self.audit(['--format=json', '--files0-from', './list'], names)
        objects = [json.loads(line) for line in out.split(b'\n')[:-1]]
        for one in objects:
            one.update({key: one[key].encode() for key in {*one} - {'state'}})
        expected = slow_objects(self.before, self.after, digests)
        self.record('as JSON, which Python reads', objects == expected and rest == [b'', 1], f'{len(expected)} objects')
        quiet = self.audit(['-q', '--format', 'json', '--files0-from', './list'], names)[0]
        same = b'","state":"same","listed":"'
        self.record('-q as JSON', quiet == b''.join(x for x in out.splitlines(keepends=True) if same not in x))

    @staticmethod
    def digests_of(tree, lines):
        """The digest of each text of a tree, whose lines are in its order."""
        return {text: line.split(b'  ')[0].lstrip(b'\\') for text, line in zip(tree.values(), lines, strict=True)}

    def print_memory(self):
        write('names', b''.join(self.names))
        write('none', b'')
        none, peak = (
            peak_of([self.ours, '--audit', '--status', '--files0-from', *it])
            for it in (['./none', './none'], ['./list', './names'])
        )
        size = len(b''.join(self.lines + self.names)) / len(self.before)
        print(
            f'memory: {(peak - none) / len(self.before):.0f} bytes a line and a name, of which the list and the names '
            f'are {size:.0f}'
        )

    def other_orders(self):
        self.rng.shuffle(self.names)
        self.rng.shuffle(self.lines)
        joined = [line for job in (2, 0, 1) for line in sorted(self.lines)[job::3]]
        for title, lines in (('the lines in another order', self.lines), ('the lines of three jobs, joined', joined)):
            self.record(title, self.audit_of(lines, self.names) == self.actual)
        classes = re.compile(rb'(?m): (?:same|changed|new|missing)$')
        out, *rest = self.audit_of(self.lines, [b'./' + name for name in self.names])
        self.record(
            'names that begin with ./',
            out.splitlines()[-1:] == self.actual[0].splitlines()[-1:]
            and rest == [b'', 1]
            and sorted(classes.findall(out)) == sorted(classes.findall(self.actual[0])),
        )

    def few_names(self):
        few = sorted(self.after)[:500]
        part = self.audit(['--files0-from', './list'], b''.join(name + b'\0' for name in few))
        self.record('names that are words', self.audit(['./list', *few]) == part)
        few = [name for name in few if b'\n' not in name]
        write('names', b''.join(name + b'\n' for name in few))
        by_lines = self.audit(['--files-from', './list', './names'])
        self.record('names that are lines', by_lines == self.audit(['./list', *few]))

    def quiet(self):
        names = b''.join(self.names)
        out = self.audit(['-q', '--files0-from', './list'], names)[0]
        lines = self.actual[0].splitlines(keepends=True)
        self.record('-q leaves out what is the same', out == b''.join(x for x in lines if not x.endswith(b': same\n')))
        silent = self.audit(['--status', '--files0-from', './list'], names)
        self.record('--status says nothing', silent == (b'', b'', 1))

    def bad_lists(self):
        lines, names, twice = self.lines, self.names, b'duplicate name'
        digest, name = lines[1].split(b'  ')[0], lines[0].split(b'  ', 1)[1]
        for title, bad_lines, named, message in (
            ('a line that stands twice', [lines[0], *lines], names, twice),
            ('a name that stands twice', lines, [names[0], *names], twice),
            ('a name that stands twice, once with ./', lines, [b'./' + names[0], *names], twice),
            ('a list that breaks off', [*lines[:-1], lines[-1][:-1].rsplit(b'  ', 1)[0], b'\n'], names, b'Improperly'),
            ('two digests of a name', [lines[0], digest, b'  ', name], names[:1], twice),
        ):
            out, err, status = self.audit_of(bad_lines, named)
            self.record(title, out == b'' and message in err and status == 1)
        out, err, status = self.audit(['./nowhere', 'd0/0'])
        self.record('a list that is not there', out == b'' and b'./nowhere' in err and status == 1)

    def planted(self):
        for title, plant in PLANTED.items():
            self.record('noticed: ' + title, plant(self.actual[0]) != self.expected)


def main():
    parser = command.parser(__doc__)
    parser.add_argument('ours', help='our program')
    parser.add_argument('--files', type=int, default=100000, help='files of the tree')
    given, report = parser.parse_args(), Report()
    ours = os.path.abspath(given.ours)
    with tempfile.TemporaryDirectory() as workdir, contextlib.chdir(workdir):
        audits = Audits(ours, given.files, report)
        audits.unchanged()
        audits.changed()
        audits.as_json()
        audits.print_memory()
        audits.other_orders()
        audits.few_names()
        audits.quiet()
        audits.bad_lists()
        audits.planted()
    return report.end()
