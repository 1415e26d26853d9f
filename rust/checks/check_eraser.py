"""Checks the eraser, rust/erase, and the source that it has written:

    rust/checks/eraser [--all] [--seed N] [--page]

- rust/src/erased and rust/programs/src/erased are the eraser's output for the crates, and a second reader (reader.py)
  explains each of their files;
- each planted source (planted_sources.txt) is refused for its reason, or erased; `case()` of each has the same value in
  Rattle, by `rt try`, and in Rust, compiled without and with overflow checks;
- changed crates, in which an edit applies another number of times or to other code, are refused;
- weakened erasers (weakened.py) are detected;
- docs/EDITS.md has the edits and these numbers: --page writes it, and checks nothing;
- with --all also the items that the crate has in a form of its own, by numbers (numbers_of_items.py), and the Rattle
  tests of the library's crates as tests of the crate (rattle_tests.py).

The last line but one has the numbers of rules, rows, sources and weakened erasers. It needs rt and rustc, and installs
nothing. One line per check; the status is 1 if one failed."""
import os
import random
import sys
import tempfile

from checks.lib import command
from checks.lib.report import Report, check
from checks.lib.tools import TOP, ran, text_of, write
from rust.checks import differential, edits_page, numbers_of_items, rattle_tests, reader, weakened
from rust.checks.planted_sources import CHANGED_CRATES, CHANGED_PROGRAMS, PLANTED

RUST, CRATES = os.path.join(TOP, 'rust'), os.path.join(TOP, 'crates')
# What is erased, the eraser's option for it, and its tree.
TREES = (
    ('library', (), os.path.join(RUST, 'src', 'erased'), reader.LIBRARY),
    ('programs', ('--programs',), os.path.join(RUST, 'programs', 'src', 'erased'), reader.PROGRAMS),
)


def is_up_to_date(args):
    done = ran([os.path.join(RUST, 'erase'), *args, '--check'])
    check(done.returncode == 0, done.stdout)


def is_explained(folder, tree):
    count, found = reader.faults(CRATES, folder, tree)
    check(count and not found, ' / '.join(found[:3]))
    return f'{count} files'


def check_planted(report, right, workdir):
    """The results of the eraser, of Rattle and of Rust for each planted source."""
    sources = {i: planted.source for i, planted in enumerate(PLANTED) if planted.value is not None}
    rattle = differential.in_rattle(sources, workdir)
    results = [right.results[planted.name] for planted in PLANTED]
    erased = {i: text for i, (outcome, text) in enumerate(results) if outcome == 'erased'}
    rust = [
        differential.in_rust(erased, workdir, *flags)
        for flags in (['-O', '-Coverflow-checks=off'], ['-Coverflow-checks=on'])
    ]
    for i, planted in enumerate(PLANTED):
        report.attempt(planted.name, is_right, right, planted, rattle.get(i), [found.get(i) for found in rust])


def is_right(right, planted, rattle, rust):
    file, name, value, reason, source = planted
    outcome, text = right.results[name]
    check(rattle == value, f'Rattle returns {rattle}, not {value}')
    check(outcome == ('refused' if reason else 'erased') and reason in text, f'{outcome}: {text}')
    check(reason or rust == [value, value], f'Rust returns {rust}, not {value}')
    fault = None if reason or 'prove!' in source else weakened.unexplained(right, file, source, text)
    check(not fault, f'the second reader does not explain {fault}')


def check_changed(report, right):
    packages = right.eraser.packages
    for changes, package in (CHANGED_CRATES, packages.LIBRARY_PACKAGE), (CHANGED_PROGRAMS, packages.PROGRAM_PACKAGE):
        for change in changes:
            report.attempt(f'a changed {change.file}', is_refused, right, change, package)


def is_refused(right, change, package):
    message = right.changed(right.eraser, change, package)
    check(
        isinstance(message, str) and change.reason in message,
        f'{message}' if isinstance(message, str) else 'it was not noticed',
    )


def page_is_written(right, counts, writes=False):
    text = edits_page.page(right.eraser, counts, len(listed_callees(right.eraser.stored)))
    if writes:
        write(os.path.join(TOP, edits_page.PAGE), text)
    check(text_of(edits_page.PAGE) == text, 'run rust/checks/eraser --page')


def listed_callees(stored):
    return {line for line in stored.read(stored.CALLEES).splitlines() if not line.startswith('#')}


def callees_are_called(stored):
    """Each function of the list is called by a crate."""
    listed = listed_callees(stored)
    called = {line for name, (_, lines) in stored.stored().items() if name.startswith('crate ') for line in lines}
    check(listed == called, f'{sorted(listed ^ called)[:3]}')
    return f'{len(listed)} functions'


def check_weakened(report, right, groups):
    for name, changed in (*groups['rules'], *groups['mistakes']):
        report.attempt(f'without {name}', is_noticed, right.noticed, changed)
    for package, edit, what, weaker in groups['weakened rows']:
        report.attempt(
            f'the edit "{edit.name}" ({edit.old[:40]}), {what}',
            is_noticed,
            weakened.edit_is_noticed,
            right,
            package,
            edit,
            what,
            weaker,
        )


def check_names(report, right, names):
    for name, *weaker in names:
        report.attempt(f'{name}, another', is_noticed, weakened.name_is_noticed, right, *weaker)


def is_noticed(notices, *what):
    found = notices(*what)
    check(found, 'it was not noticed')
    return '' if found is True else f'by {found}'


def main():
    parser = command.parser(__doc__)
    parser.add_argument('--all', action='store_true', help='also what takes long')
    parser.add_argument(
        '--seed', type=int, default=random.SystemRandom().randrange(1 << 32), help='the seed of random numbers'
    )
    parser.add_argument('--page', action='store_true', help='write docs/EDITS.md')
    chosen, report, right = parser.parse_args(), Report(), weakened.Right()
    groups: dict[str, list] = {
        'rules': [*weakened.refusals(), *weakened.wider_lists()],
        'mistakes': [*weakened.mistakes()],
        'weakened rows': [*weakened.weakened_edits(right.eraser)],
        'names': [*weakened.weakened_names(right)],
    }
    counts = {name: len(group) for name, group in groups.items()}
    if chosen.page:
        return page_is_written(right, counts, writes=True)
    for name, options, folder, tree in TREES:
        report.attempt(f'the erased source of the {name} is up to date', is_up_to_date, options)
        report.attempt(f'the erased source of the {name}, by a second reader', is_explained, folder, tree)
    report.attempt('the functions of the list are called', callees_are_called, right.eraser.stored)
    report.attempt('the page of the edits', page_is_written, right, counts)
    with tempfile.TemporaryDirectory() as workdir:
        check_planted(report, right, workdir)
        check_changed(report, right)
        check_weakened(report, right, groups)
        check_names(report, right, groups['names'])
        if chosen.all:
            numbers_of_items.check_all(report, right, workdir, chosen.seed)
            report.attempt('the Rattle tests, as rustc compiles them', rattle_tests.run_tests, workdir)
    print(
        f'{counts["rules"]} rules, {counts["weakened rows"]} weakened rows of edits, {counts["names"]} names, '
        f'{len(PLANTED)} planted sources, {sum(counts.values())} '
        f'weakened erasers; seed {chosen.seed}'
    )
    sys.exit(report.end())
