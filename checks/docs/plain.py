"""Rules for pages: the length of sections and pages, the evidence in README.md, the README of folders, and blocks that
are run, for checks/readme; the length of sentences, for checks/lint."""
import re
from typing import Iterator

from checks.lib.tools import text_of

from . import printed

# The most words of README.md, of one of its sections, and of a sentence.
MOST_WORDS, MOST_OF_SECTION, MOST_OF_SENTENCE = 1400, 150, 30
# The most words of other pages.
MOST_OF_PAGE = {'docs/RECIPES.md': 900, 'docs/FAQ.md': 500}
# The folders whose README says in few lines what they are.
PLATES = tuple(f'{it}/README.md' for it in ('assembly', 'bench', 'c', 'checks', 'oracle', 'release'))
MOST_LINES_OF_PLATE = 12
# The evidence in README.md: the columns, and the first cell of each row.
COLUMNS = ['part', 'source proved', 'machine code verified', 'tested', 'you trust']
PARTS = ['C library', 'C header', 'crate', 'programs by cargo', 'programs by `rt`', 'Python', 'Node']
# The pages with short sentences.
SHORT_SENTENCES = (
    *'README.md SECURITY.md CONTRIBUTING.md docs/C.md docs/RUST.md docs/PYTHON.md web/README.md'.split(),
    *PLATES,
    *MOST_OF_PAGE,
)
# The pages whose every block is run.
ALL_RUN = ('docs/RECIPES.md',)
FENCED = re.compile(r'^```.*?^```$', re.M | re.S)
# The end of a sentence, also of an item of a list and of a paragraph.
END = re.compile(r'(?<=[.?!])(?=\)?\s+[A-Z`*\[])|\n\s*\n|\n(?=\s*(?:- |\d+\. |\|))')


def words(text: str) -> list[str]:
    """The words of a text: what has a letter or a digit."""
    return [it for it in text.split() if re.search(r'\w', it)]


def sections(text: str) -> Iterator[tuple[str, str]]:
    """The sections of a page, each the text below a heading up to the next one. A heading in a block is none."""
    hidden = FENCED.sub(lambda block: re.sub(r'^#', ' ', block[0], flags=re.M), text)
    starts = [it.start() for it in re.finditer(r'^#+ ', hidden, re.M)]
    for start, end in zip(starts, [*starts[1:], len(hidden)]):
        heading, _, body = hidden[start:end].partition('\n')
        yield heading.lstrip('# '), body


def sentences(text: str) -> Iterator[str]:
    """The sentences of a page, without blocks, tables, headings and the targets of links."""
    text = re.sub(r'<!--.*?-->', '', FENCED.sub('\n', text), flags=re.S)
    text = re.sub(r'(?<=\])\([^)\s]*\)', '', re.sub(r'^(?:\||#).*$', '', text, flags=re.M))
    yield from filter(None, (it.strip() for it in END.split(text)))


def long_sections(name: str, text: str) -> Iterator[str]:
    if name == 'README.md':
        for heading, body in sections(text):
            if (count := len(words(body))) > MOST_OF_SECTION:
                yield f'{name}: {heading}: {count} words, of at most {MOST_OF_SECTION}'


def long_sentences(*paths: str) -> Iterator[str]:
    for path in paths:
        for it in sentences(text_of(path)):
            if (count := len(words(it))) > MOST_OF_SENTENCE:
                yield f'{path}: a sentence of {count} words, of at most {MOST_OF_SENTENCE}: {" ".join(it.split())[:80]}'


def long_pages(name: str, text: str) -> Iterator[str]:
    most = {'README.md': MOST_WORDS, **MOST_OF_PAGE}.get(name)
    if most and (count := len(text.split())) > most:
        yield f'{name}: {count:,} words, of at most {most:,}'


def blocks_not_run(name: str, text: str) -> Iterator[str]:
    """Each block of the pages whose every block is run that no check runs."""
    if name in ALL_RUN:
        for language in re.findall(r'^```(.*)\n(?:.*\n)*?```$', text, re.M):
            if language != 'sh':
                yield f'{name} has a block of {language or "no language"}, which no check runs'
        for section in printed.sections(name, '', text):
            yield from (f'{name}:{block.line}: is not run: {block.reason}' for block in section.blocks if block.reason)


def evidence_that_lacks(name: str, text: str) -> Iterator[str]:
    """README.md has a row of evidence for each part, without empty cells."""
    if name == 'README.md':
        found = re.search(rf'^\| {re.escape(" | ".join(COLUMNS))} \|\n\|[-|]*\n((?:\|.*\n)+)', text, re.M)
        rows = (
            [[cell.strip() for cell in line.strip('|').split('|')] for line in found[1].splitlines()] if found else []
        )
        if [row[0] for row in rows] != PARTS:
            yield f'{name} has evidence for {[row[0] for row in rows]}, not for {PARTS}'
        yield from (
            f'{name}: the evidence for {row[0]} has an empty cell'
            for row in rows
            if len(row) != len(COLUMNS) or not all(row)
        )


def plates_that_lack(name: str, text: str) -> Iterator[str]:
    """A door plate is short, and has one command, what it trusts and what it takes."""
    if name in PLATES:
        if len(text.splitlines()) > MOST_LINES_OF_PLATE:
            yield f'{name} has more than {MOST_LINES_OF_PLATE} lines'
        if len(re.findall(r'^```sh\n.+\n```$', text, re.M)) != 1:
            yield f'{name} does not have one command'
        yield from (f'{name} does not have **{it}**' for it in ('Trusts', 'Takes') if f'- **{it}' not in text)


RULES = (long_sections, long_pages, blocks_not_run, evidence_that_lacks, plates_that_lack)
EVIDENCE = '\n'.join(
    [f'| {" | ".join(COLUMNS)} |', '|---|---|---|---|---|', *(f'| {part} | 1 | 2 | 3 | 4 |' for part in PARTS), '']
)
PLATE = '# c/\n\n```sh\nmake\n```\n\n- **Trusts:** gcc.\n- **Takes:** 1 s.\n'
# For each rule a page, texts that break it, and one that does not.
PLANTED = {
    long_sections: ('README.md', ['## One\n\n' + 'word ' * 151], '## One\n\n' + 'word ' * 150 + '\n### Two\n\nword\n'),
    long_pages: ('docs/RECIPES.md', ['word ' * 901], 'word ' * 900),
    evidence_that_lacks: (
        'README.md',
        [EVIDENCE.replace('| Node | 1 |', '| Node | |'), EVIDENCE.replace('| crate |', '| box |')],
        EVIDENCE,
    ),
    plates_that_lack: (
        'c/README.md',
        [PLATE.replace('Trusts', 'Likes'), PLATE + 'a\n' * 20, PLATE.replace('make\n', '')],
        PLATE,
    ),
    blocks_not_run: (
        'docs/RECIPES.md',
        ['<!-- not run: slow -->\n```sh\ntrue\n```\n', '```c\nint a;\n```\n'],
        '```sh\ntrue\n```\n',
    ),
}


def faults(name: str, text: str) -> Iterator[str]:
    for rule in RULES:
        yield from rule(name, text)


def planted() -> Iterator[str]:
    """Each rule detects its planted pages, and accepts the other."""
    for rule, (name, wrongs, right) in PLANTED.items():
        yield from (f'{rule.__name__} does not detect {text!r:.60}' for text in wrongs if not list(rule(name, text)))
        yield from (f'{rule.__name__} refuses a planted page: {fault}' for fault in rule(name, right))
