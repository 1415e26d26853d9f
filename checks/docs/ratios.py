"""The tables of speed in README.md, computed from bench/data, and the ratios in its sentences."""
import re
import statistics
from typing import Iterator, NamedTuple, Optional

from bench import measured, objects, page
from checks.lib.tools import text_of

PAGE, SECTION = 'README.md', '## Speed'
RATIO = r'(?<![\d.])\d+\.\d\d(?!\d|\.\d)'
# A bound, which no table has.
APART = {'0.95'}
NAMES = {'XXH3-64': 'XXH3, 64 bits', 'XXH3-128': 'XXH3, 128 bits', 'XXH64': 'XXH64', 'XXH32': 'XXH32'}
# The equal pairs that 2^32 items have on average.
PAIRS = {'XXH3-64': '1/2', 'XXH3-128': '2^-65', 'XXH64': '1/2', 'XXH32': '2^31'}


def rows_of(name):
    """The cells of each row of a file of bench/data, without its head and its first lines."""
    return [line.split('\t') for line in page.data_of(name) if not line.startswith('#')]


def libraries():
    """The measurements of each part of bench/data/measured.tsv and c.tsv."""
    files = [measured.FILE, f'{page.DATA}/c.tsv']
    rows = [it for file in files for it in measured.read(file)[1] if it.form in page.FORMS]
    return {part: [it for it in rows if it.part == part] for part in ('c', 'dispatch', *page.SETS)}


def numbers(cells, pattern=RATIO):
    return [float(it) for cell in cells for it in re.findall(pattern, cell)]


class Speed(NamedTuple):
    """A line of the table of speed. `data` is the file of bench/data, `code` the measured code, and `mean` another one
    than the median."""

    product: str
    peer: str
    ratios: list[float]
    data: str
    code: str
    mean: str = ''

    def middle(self) -> str:
        return self.mean or f'{statistics.median(self.ratios):.2f}'


def speeds() -> Iterator[Speed]:
    parts, counts = libraries(), {row[0]: row[1:] for row in rows_of('cargo_counts')}
    library, dispatch = ([it.peers['c_shared'].median for it in parts[name]] for name in ('c', 'dispatch'))
    yield Speed('C library', "Debian's `libxxhash`", library, 'c', 'c')
    yield Speed('C library, AVX-512', 'its `.._dispatch`', dispatch, 'c', 'dispatch')
    yield Speed('C header', "Debian's `xxhash.h`", numbers(row[2] for row in rows_of('header')), 'header', 'header')
    for name in page.SETS:
        yield Speed(f'functions, {name}', 'fastest of four', list(map(page.best, parts[name])), 'measured', 'library')
    for peer in ('twox-hash', 'xxhash-rust'):
        _, mean, _, lowest = counts[f'plain, beside `{peer}`']
        yield Speed('crate', f'`{peer}`', numbers([lowest]), 'cargo', 'cargo', f'{mean} (mean)')
    debians, (by_cargo, by_rt) = "Debian's `xxhsum`", (rows_of(name) for name in ('cargo_programs', 'xxhsum'))
    programs = numbers(row[2] for row in by_cargo[1:])
    yield Speed('`xxhsum` by cargo', debians, programs, 'cargo_programs', 'cargo_programs')
    for at, name in enumerate(page.SETS, 2):
        yield Speed(f'`xxhsum` by `rt`, {name}', debians, numbers(row[at] for row in by_rt), 'xxhsum', 'xxhsum')
    python, web = (numbers(cell for row in rows_of(name)[1:] for cell in row[1:]) for name in ('python', 'web'))
    yield Speed('Python', "Debian's python3-xxhash", python, 'python', 'python', 'not stored')
    yield Speed('Node, Chromium', "`xxhash.h` as WebAssembly", web, 'web', 'web')


def table_of_speed() -> str:
    lines = []
    for it in speeds():
        day = page.origin(it.data)[2] + ' †' * objects.is_older(it.code)
        lines.append([it.product, it.peer, it.middle(), f'{min(it.ratios):.2f}', day])
    return '\n'.join(page.markdown(['product', 'peer', 'median', 'lowest', 'date'], lines))


def table_of_hashes() -> str:
    """The times of one-shots, at x86-64-v3."""
    rows = {(it.name, it.size): it.speed for it in libraries()['x86-64-v3'] if it.form == 'oneshot'}
    lines = [
        [
            title,
            f'{16 / rows[name, 16]:.1f} ns',
            *(f'{rows[name, size]:.0f} GB/s' for size in (page.KIB, page.MIB)),
            PAIRS[name],
        ]
        for name, title in NAMES.items()
    ]
    return '\n'.join(page.markdown(['hash', '16 bytes', '1 KiB', '1 MiB', 'equal pairs among 2^32 items'], lines))


def sentence_of_web() -> str:
    """The ratios of both modules in an engine, over all hashes and sizes."""
    parts = []
    for engine in ('Node 20', 'Chromium 156'):
        values = numbers(cell for row in rows_of('web')[1:] if row[0].endswith(engine) for cell in row[1:])
        parts.append(f'{statistics.median(values):.2f} ({min(values):.2f} to {max(values):.2f}) in {engine}')
    return ' and '.join(parts)


def sentences_of_c() -> Iterator[str]:
    """The ratios of the library and of the header, as parts of sentences."""
    for it in speeds():
        if it.product in ('C library', 'C header'):
            yield f'{it.middle()} times as fast as {it.peer} in the median, {min(it.ratios):.2f} times at worst'


def that_differ(text: Optional[str] = None) -> Iterator[str]:
    """Each table that README.md lacks, and each ratio in its sentences that is in no table."""
    text = text_of(PAGE) if text is None else text
    for table in (table_of_speed(), table_of_hashes()):
        if table not in text:
            yield f'{PAGE} does not have this table of bench/data:\n{table}'
    section = text.partition(f'{SECTION}\n')[2].split('\n## ')[0]
    found = {ratio for line in section.splitlines() if not line.startswith('|') for ratio in re.findall(RATIO, line)}
    unknown = found - APART - set(re.findall(RATIO, table_of_speed()))
    if unknown:
        yield f'{PAGE} says {sorted(unknown)}, which are in no table'


def with_tables(text: str) -> str:
    """A page with the tables of bench/data in place of those with the same first line."""
    for table in (table_of_speed(), table_of_hashes()):
        head = table.partition('\n')[0]
        text = re.sub(rf'^{re.escape(head)}\n(?:\|.*\n)+', lambda _: table, text, flags=re.M)
    return text


def counts_that_differ(text: Optional[str] = None) -> Iterator[str]:
    """README.md has the number of measurements, and of those below 0.95, also for the crate."""
    text = text_of(PAGE) if text is None else text
    rows = [page.best(it) for part, of in libraries().items() if part in page.SETS for it in of]
    calls, _, below, _ = {row[0]: row[1:] for row in rows_of('cargo_counts')}['plain, beside `twox-hash`']
    for phrase in (f'{sum(it < 0.95 for it in rows)} of the {len(rows)} measurements', f'{below} of {calls} calls'):
        if phrase not in text:
            yield f'{PAGE} does not have: {phrase}'
