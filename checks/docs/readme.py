"""Compares the pages with the tree:

    checks/readme [--write]

- CALLING.md quotes the code of crates/example and crates/calling, and docs/C.md a program in C;
- links, also to headings, and the workflow's commands exist, and --help of the checks explains their options;
- docs/SPEED.md agrees with its data; each table has its date, commit and processor, and says "Older than this version"
  if the measured code has changed since or the commit is not in git's history;
- docs/VERIFICATION.md and README.md have the runs that oracle/runs.tsv records, and the former the counts of
  oracle/mutate --record;
- README.md has the counts of checks/lines-to-believe and oracle/lines-to-trust, and CONTRIBUTING.md those of mutants;
- the tables of speed in README.md are those of bench/data (checks/docs/ratios.py), and none is one of docs/SPEED.md;
- docs/api.txt has every public name, and only names that exist, docs/CONTRACTS.md every clause and docs/MANUAL.md the
  manual pages;
- docs/C.md has the numbers of names, and an ordinary user can install where the pages say;
- web/README.md has the sizes of its files and the ratios of bench/data;
- the crate's manifest includes only what exists, and its page has its default features;
- all versions are equal;
- README.md has short sections; README.md, docs/FAQ.md and docs/RECIPES.md are short; every block of docs/RECIPES.md is
  run (checks/docs/plain.py);
- the pages have at most MOST_WORDS words.

Each rule on lengths, blocks and dates must first detect a planted fault. --write writes the tables of speed into
README.md first."""
import collections
import glob
import os
import re
import subprocess

import tomllib
from typing import Callable, Iterable, Iterator, NamedTuple, Optional

from checks.lib import command
from checks.lib.report import Report
from checks.lib.tools import TOP, text_of, write

from . import plain, ratios


class Quote(NamedTuple):
    """A part of a source in a page. Without an `end` it is the end of the source."""

    page: str
    source: str
    start: str
    end: Optional[str] = None


QUOTES = [
    Quote('CALLING.md', 'crates/example/src/main.rt', 'use std::io;'),
    Quote('CALLING.md', 'crates/calling/src/callers.rt', '/// XXH64 of two', '\n}\n'),
    Quote('docs/C.md', 'examples/c/three-ways.c', '#include <stdio.h>'),
]
# A file, and its text before and after the project's version.
VERSIONS = [
    ('web/package.json', r'^  "version": "(.*)"'),
    ('web/README.md', r'twox_hash-([0-9.]*)\.tgz'),
    ('python/pyproject.toml', r'^version = "(.*)"'),
    ('python/src/twox_hash/version.py', r"^__version__ = '(.*)'"),
    ('docs/RELEASES.md', r'twox[-_]hash[-_](\d+\.\d+\.\d+)(?:[-+*]|\.tar|\.tgz)'),
    ('CHANGELOG.md', r'\A# [^#]*## (\d+\.\d+\.\d+)'),
    ('CITATION.cff', r'^version: (.*)'),
    ('debian/changelog', r'\Atwox-hash \((.*)\)'),
    ('crates/xxhsum_program/src/usage.rt', r'b" ([0-9.]*) of twox_hash'),
    ('crates/xxh_program/src/program/information.rt', r'b"xxh ([0-9.]*) of twox_hash'),
    ('rust/programs/Cargo.toml', r'^version = "(.*)"'),
    ('rust/eraser/edits.py', r'b" ([0-9.]*) of twox_hash'),
]
# The releases whose messages and lines `xxhsum` has: in the program, and on its page.
RELEASES = [
    ('crates/xxhsum_program/src/usage.rt', r'the messages of xxhsum ([0-9.]+) and the options and lines of ([0-9.]+)"'),
    ('docs/XXHSUM.md', r'exit statuses are those of `xxhsum` ([0-9.]+)\. The options.* are those of ([0-9.]+)\.'),
]
# The pages that a script writes, and the most words of all other pages together.
GENERATED = {'docs/SPEED.md', 'docs/CONTRACTS.md', 'docs/MANUAL.md', 'docs/EDITS.md'}
MOST_WORDS = 17500
WORKFLOW = '.github/workflows/checks.yml'
INTERFACES = [
    ('crates/twox_rust/src/lib.rt', r'fn twox_rust_interface_(\d+)'),
    ('docs/RELEASES.md', r"and interface (\d+) of the crate's assembly"),
]


def pages():
    listed = subprocess.run(
        ['find', '.', '-name', '*.md', '-not', '-path', '*/out/*', '-not', '-path', '*/target/*'],
        cwd=TOP,
        capture_output=True,
        text=True,
        check=True,
    )
    return sorted(os.path.normpath(path) for path in listed.stdout.splitlines())


def quotes_that_differ():
    for page, source, start, end in QUOTES:
        code = text_of(source)
        code = code[code.index(start) :]
        code = code[: code.index(end) + len(end)] if end else code
        language = 'c' if source.endswith('.c') else 'rust'
        if f'```{language}\n{code.rstrip()}\n```' not in text_of(page):
            yield f'{page} does not quote {source} as it stands'


def anchors(page):
    """The anchors of a page's headings, as the hosts of repositories make them."""
    headings = re.findall(r'^#+ (.*)', re.sub(r'^```.*?^```$', '', text_of(page), flags=re.M | re.S), re.M)
    return {re.sub(r'[^\w -]', '', heading.lower()).replace(' ', '-') for heading in headings}


def helps_that_explain_too_little():
    """--help of each check begins with the command's name, and explains each option."""
    programs = [f'{folder}/check' for folder in ('c', 'rust', 'rust/programs', 'python', 'web', 'release')]
    programs += [
        f'oracle/{name}' for name in ('symbolic', 'machine-text', 'arm-text', 'modules', 'rust-object', 'mutate')
    ]
    for program in programs:
        done = subprocess.run([os.path.join(TOP, program), '--help'], capture_output=True, text=True, timeout=60)
        usage, _, rest = done.stdout.partition('\n\n')
        description, _, options = re.sub(r'^ {4}\S+/check .*', '', rest, flags=re.M).partition('options:')
        if done.returncode or not re.match(rf'usage: (\S*/)?{os.path.basename(program)}( |$)', usage):
            yield f'{program} --help begins with {done.stdout[:50]!r}'
        for option in re.findall(r'^  (?:-\w, )?(--[\w-]+)[^\n ]*(?: [^\n ]+)?$(?!\n {8})', options, re.M):
            if option not in description:
                yield f'{program} --help does not explain {option}'


def links_that_lead_nowhere():
    for page in pages():
        for link, anchor in re.findall(r'\]\(([^)#]*)(?:#([^)]*))?\)', text_of(page)):
            target = os.path.normpath(os.path.join(os.path.dirname(page), link)) if link else page
            if link.startswith('http'):
                continue
            if not os.path.exists(os.path.join(TOP, target)):
                yield f'{page} links {link}, which is not there'
            elif anchor and anchor not in anchors(target):
                yield f'{page} links {link}#{anchor}, and there is no such heading'
    for path in re.findall(r'\b((?:c|rust|python|web|oracle|release|checks)/[a-z-]+)', text_of(WORKFLOW)):
        if not os.path.exists(os.path.join(TOP, path)):
            yield f'{WORKFLOW} calls {path}, which is not there'


def names_that_differ():
    listed = subprocess.run([os.path.join(TOP, 'docs', 'api', 'make'), '--check'], capture_output=True, text=True)
    if listed.returncode:
        yield (listed.stdout + listed.stderr).strip()


def listed_names_without_definition():
    """Each name of a crate in docs/api.txt is there once. Its module has a public definition of it or a `pub use` that
    ends with it, or the crate exports it as a symbol."""
    listed = re.findall(r'^(\w+) ((?:\w+::)+)(\w+)', text_of('docs/api.txt').split('\n# C\n')[0], re.M)
    for kind, path, name in listed:
        crate, *modules = path.removesuffix('::').split('::')
        sources = {file: text_of(file) for file in glob.glob(f'{TOP}/crates/{crate}/src/**/*.rt', recursive=True)}
        names = ['/'.join(modules)] if modules else ['lib', 'main']
        module = ''.join(
            text for file, text in sources.items() if file.endswith(tuple(f'{crate}/src/{it}.rt' for it in names))
        )
        given = rf'\bpub (?!use)[^;{{=]*\b{kind} {name}\b|\bpub use [^;]*\b{name}\s*[;,}}]'
        exported = rf'\bpub (?:(?:unsafe )?extern "C" fn|static) {name}\b'
        if not re.search(given, module) and not re.search(exported, ''.join(sources.values())):
            yield f'docs/api.txt has {kind} {path}{name}, which {crate} does not define'
    counts = collections.Counter((path, name) for _, path, name in listed)
    yield from (f'docs/api.txt has {path}{name} twice' for (path, name), count in counts.items() if count > 1)


def numbers_of_c_that_differ():
    """docs/C.md has the numbers of names that `make check` prints, all and those on 64-bit ARM, and the ratios of the
    library and of the header."""
    names = re.findall(r'^ *(XXH\w+);$', text_of('c/libxxhash.map'), re.M)
    own = [name for name in names if name == 'XXH_featureTest']
    shared = [name for name in names if not name.endswith('_dispatch') and name not in own]
    for sentence in (
        f'the {len(names) - len(own)} names of release 0.8.1 and `XXH_featureTest` of 0.8.3',
        f"the {len(shared)} names of Debian's",
        *ratios.sentences_of_c(),
    ):
        if sentence not in text_of('docs/C.md'):
            yield f'docs/C.md does not have {sentence}'


def prefixes_that_need_root():
    """An ordinary user can install to each PREFIX of these pages."""
    for page in ('README.md', 'docs/C.md', 'examples/README.md'):
        for prefix in re.findall(r'install PREFIX=(\S+)', text_of(page)):
            if not prefix.startswith('$HOME/') and prefix != '/usr/lib/twox-hash':
                yield f'{page} installs to {prefix}, which only root can write'


def sizes_of_web():
    sizes = {
        name: os.path.getsize(os.path.join(TOP, 'web', name))
        for name in ('twox_hash.wasm', 'twox_hash_simd.wasm', 'twox_hash.js')
    }
    return ', '.join(f'`{name}` {size:,}' for name, size in sizes.items())


def numbers_of_web_that_differ():
    """web/README.md has the sizes of its files, and the ratios of bench/data/web.tsv."""
    for expected in (sizes_of_web(), ratios.sentence_of_web()):
        if expected not in text_of('web/README.md'):
            yield f'web/README.md does not have: {expected}'


def manifest_that_differs():
    """The crate's manifest includes only what exists, and its page names the features that are off by default."""
    manifest = tomllib.loads(text_of('rust/Cargo.toml'))
    for pattern in manifest['package']['include']:
        if not glob.glob(f'{TOP}/rust{pattern}'):
            yield f'rust/Cargo.toml includes {pattern}, which does not exist'
    features = manifest['features']
    on = {'default', *features['default'], *(it for name in features['default'] for it in features[name])}
    off = ', '.join(f'`{name}`' for name in features if name not in on)
    if f'All except {off} are on by default.' not in text_of('rust/README.md'):
        yield f'rust/README.md does not have that all features except {off} are on by default'


def versions_that_differ():
    version = text_of('VERSION').strip()
    for path, pattern in VERSIONS:
        for found in re.findall(pattern, text_of(path), re.M) or ['none']:
            if found != version:
                yield f'{path} has the version {found}, and VERSION {version}'


def releases_that_differ():
    """The releases of xxhsum, and the number of the crate's interface, in the sources and on the pages."""
    for sides in (RELEASES, INTERFACES):
        (source, found), (page, there) = ((path, re.findall(pattern, text_of(path))) for path, pattern in sides)
        if not found or found != there:
            yield f'{source} has {found}, and {page} {there}'


def figures_that_differ():
    done = subprocess.run([os.path.join(TOP, 'bench', 'page'), '--check'], capture_output=True, text=True)
    if done.returncode:
        yield done.stderr.strip()
    counted = subprocess.run([os.path.join(TOP, 'checks', 'lines-to-believe')], stdout=subprocess.PIPE, text=True)
    headline, program, run = counted.stdout.splitlines() if counted.returncode == 0 else ('', '', '')
    trusted = subprocess.run(
        [os.path.join(TOP, 'oracle', 'lines-to-trust')], stdout=subprocess.PIPE, text=True
    ).stdout.strip()
    for page, count in (
        ('README.md', headline),
        ('docs/XXHSUM.md', program),
        ('docs/XXHSUM.md', run),
        ('docs/VERIFICATION.md', trusted),
        ('README.md', trusted),
    ):
        if not count or count not in text_of(page):
            yield f'{page} does not have what checks/lines-to-believe or oracle/lines-to-trust counts: {count}'


class VerifierRun(NamedTuple):
    """A line of oracle/runs.tsv: a program of oracle/ with its options, and the last line that it printed."""

    command: str
    commit: str
    day: str
    end: str


def runs_of_verifier() -> list[VerifierRun]:
    return [VerifierRun(*line.split('\t')) for line in text_of('oracle/runs.tsv').splitlines()[1:]]


def table_of_runs():
    rows = [f'| `oracle/{it.command}` | `{it.commit}` | {it.day} | {it.end} |' for it in runs_of_verifier()]
    return '\n'.join(['', '| program | commit | date | last line |', '|---|---|---|---|', *rows, ''])


def runs_that_differ():
    """docs/VERIFICATION.md has the runs of the verifier as oracle/runs.tsv records them, and README.md the ends of
    those that it names."""
    if table_of_runs() not in text_of('docs/VERIFICATION.md'):
        yield f'docs/VERIFICATION.md does not have the table of oracle/runs.tsv:{table_of_runs()}'
    ends = dict(re.findall(r'^- `oracle/([\w -]+)`.*`(\d+ passed, 0 failed)`$', text_of('README.md'), re.M))
    recorded = {it.command: it.end for it in runs_of_verifier() if it.command in ends}
    if ends != recorded:
        yield f'README.md has {ends}, and oracle/runs.tsv {recorded}'


def tables_without_date(text):
    """Each table of docs/SPEED.md has the date, the commit and the processor of its measurements below it."""
    for head, below in re.findall(r'^(\|.*)\n\|---.*\n(?:\|.*\n)+\n(.*)', text, re.M):
        if not re.search(r'on \d{4}-\d\d-\d\d, (at|stored by) commit `?\w+`?, on \w', below):
            yield f'docs/SPEED.md has no date, commit and processor below the table {head}'


def commits_that_are_nowhere(text):
    """Each measurement of a commit that is not in git's history is older than this version. Without git, as in CI's
    copy, no commit is looked up."""
    if os.path.exists(os.path.join(TOP, '.git')):
        for line in re.findall(r'^Measured .*', text, re.M):
            for commit in re.findall(r'commit `?(\w{8,40})\b', line):
                known = subprocess.run(
                    ['git', 'merge-base', '--is-ancestor', commit, 'HEAD'], cwd=TOP, capture_output=True
                )
                if known.returncode and 'Older than this version' not in line:
                    yield f'docs/SPEED.md has the commit {commit} of no history, without "Older than this version"'


def dates_that_differ():
    for differ in (tables_without_date, commits_that_are_nowhere):
        yield from differ(text_of('docs/SPEED.md'))


def undetected(what: str, wrong: Iterable[str], right: Iterable[str] = ()) -> Iterator[str]:
    """A fault of a rule that finds nothing in a planted text, or something in a right one."""
    if not list(wrong) or list(right):
        yield f'{what} is not detected, or a right one is refused'


def planted_dates():
    """A table without a processor, an unknown commit and changed code are detected."""
    table, line = '| a |\n|---|\n| 1 |\n\n', 'Measured on 2026-01-01, at commit `01234567`'
    wrong, right = (tables_without_date(f'{table}{line}{end}') for end in ('.', ', on a machine.'))
    yield from undetected('a table without a processor', wrong, right)
    if os.path.exists(os.path.join(TOP, '.git')):
        wrong, right = (
            commits_that_are_nowhere(line + end) for end in (', on a machine.', '. Older than this version.')
        )
        yield from undetected('a commit that is not in the history', wrong, right)
    for checksum in ('0' * 64, 'unknown'):
        ages = (ratios.page.age('web', {'web': it}) for it in (checksum, ratios.objects.checksum('web')))
        yield from undetected('measured code that has changed', *ages)


def tables_that_repeat():
    """README.md says in a sentence what docs/SPEED.md has in tables."""
    rows = set(re.findall(r'^\| (?!---).*', text_of('docs/SPEED.md'), re.M))
    for row in re.findall(r'^\| .*', text_of('README.md'), re.M):
        if row in rows:
            yield f'README.md repeats a row of docs/SPEED.md: {row}'


def without_generated(text):
    """A page without the tables that scripts write."""
    for table in (table_of_runs(), ratios.table_of_speed(), ratios.table_of_hashes()):
        text = text.replace(table, '')
    return text


def words_over_the_limit(texts=None):
    texts = texts or [text_of(page) for page in pages() if page not in GENERATED]
    count = sum(len(without_generated(text).split()) for text in texts)
    if count > MOST_WORDS:
        yield f'The pages: {count:,} words, of at most {MOST_WORDS:,}'


def pages_that_are_not_plain():
    for page in pages():
        yield from plain.faults(page, text_of(page))


def planted_tables():
    """A README without the tables, with a ratio of no table or without the counts, and too many words are not
    accepted."""
    known = f'{ratios.table_of_speed()}\n{ratios.table_of_hashes()}\n{ratios.SECTION}\n'
    if ratios.with_tables(known.replace('| crate |', '| box |')) != known:
        yield 'the tables of a README are not written'
    if len(list(ratios.that_differ(''))) != 2 or len(list(ratios.counts_that_differ(''))) != 2:
        yield 'a README without the tables of speed or the counts of measurements is accepted'
    yield from undetected('another ratio', ratios.that_differ(f'{known}It is 9.87.\n'), ratios.that_differ(known))
    wrong, right = (
        words_over_the_limit(texts) for texts in (['word ' * (MOST_WORDS + 1)], [known, 'word ' * (MOST_WORDS - 2)])
    )
    yield from undetected('a number of words over the limit', wrong, right)


def ratios_that_differ():
    for differ in (ratios.that_differ, ratios.counts_that_differ):
        yield from differ()


def mutants_that_differ():
    """CONTRIBUTING has the number of mutants, so that a file of them can't be lost, and how many only a proof
    refuses."""
    files = glob.glob(os.path.join(TOP, 'crates', '*', 'mutants.edits'))
    count = sum(len(re.findall(r'^== ', text_of(path), re.M)) for path in files)
    reasons = re.findall(r'^\S+/\S+ \w+ (.*)', text_of('checks/mutants/refused.txt'), re.M)
    by_goal = reasons.count("by a clause's goal")
    expected = (
        f'tries {count:,} mutants: of {len(reasons):,} on record, {by_goal:,} are refused because a clause no longer '
        f'holds, {len(reasons) - by_goal:,} only because a written proof no longer fits'
    )
    if expected not in text_of('CONTRIBUTING.md'):
        yield f'CONTRIBUTING.md does not have that checks/wrong-bodies {expected}'


def mutants_of_verifier_that_differ():
    """docs/VERIFICATION.md has the counts of the last oracle/mutate --record."""
    names, numbers = (line.split('\t') for line in text_of('oracle/verifier_mutants/counts.tsv').splitlines())
    count = {name: int(number) for name, number in zip(names[2:], numbers[2:])}
    detected = sum(count[kind] for kind in ('value', 'processor', 'right', 'planted'))
    expected = (
        f"{count['tested']:,} of its {count['mutants']:,} mutants: {detected:,} are detected, "
        f"{count['reason']:,} have a reason, {count['unexplained']:,} are unexplained, "
        f"of these {count['of decisions']:,} in comparisons and conditions"
    )
    if expected not in text_of('docs/VERIFICATION.md'):
        yield f'docs/VERIFICATION.md does not have that oracle/mutate tried {expected}'


def main():
    parser = command.parser(__doc__)
    parser.add_argument('--write', action='store_true', help='write the tables of speed into README.md first')
    if parser.parse_args().write:
        write(os.path.join(TOP, ratios.PAGE), ratios.with_tables(text_of(ratios.PAGE)))
    checks: tuple[Callable[[], Iterable[str]], ...] = (
        quotes_that_differ,
        helps_that_explain_too_little,
        links_that_lead_nowhere,
        names_that_differ,
        listed_names_without_definition,
        numbers_of_c_that_differ,
        prefixes_that_need_root,
        numbers_of_web_that_differ,
        manifest_that_differs,
        versions_that_differ,
        releases_that_differ,
        figures_that_differ,
        runs_that_differ,
        dates_that_differ,
        planted_dates,
        tables_that_repeat,
        words_over_the_limit,
        pages_that_are_not_plain,
        plain.planted,
        ratios_that_differ,
        planted_tables,
        mutants_that_differ,
        mutants_of_verifier_that_differ,
    )
    report = Report()
    for faults in [list(find()) for find in checks]:
        print(*faults, sep='\n', end='\n' * bool(faults))
        report.count(not faults, bool(faults))
    return report.end()
