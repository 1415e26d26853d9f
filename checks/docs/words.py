"""The words of checks/docs/words.txt in pages, comments, help texts and error messages, outside of code."""
import fnmatch
import functools
import io
import os
import re
import tempfile
import tokenize
from typing import Iterator

from checks.lib.tools import TOP, text_of

LIST = 'checks/docs/words.txt'
# Code in a page, and in a comment.
CODE = re.compile(r'^```.*?^```$|`[^`\n]*`|(?<=\])\([^)\n]*\)', re.M | re.S)
# What no reader of a page in HTML sees.
HTML = re.compile(r'<script.*?</script>|<style.*?</style>|<[^>]*>', re.S)
# A value in a message.
VALUE = re.compile(r'\$?\{[^{}]*\}|\$\w+')
LIKE_C = ('.rt', '.rs', '.c', '.h', '.js', '.mjs', '.ts', '.go', '.java', '.cpp', '.css')
LIKE_SHELL = ('', '.sh', '.in', '.cmake', '.toml', '.txt', '.yml', '.ld')
# Files whose strings users read: help texts, messages and exceptions; and folders in them that only developers see.
NOT_READ = re.compile(r'/(checks|tests|bench_c)/')
MESSAGES = """
    crates/xxhsum_*/src/*.rt c/* rust/build-library rust/eraser/erase.py rust/programs/src/bin/* web/*
    python/*.py python/build python/native/* python/src/* release/* examples/*
""".split()
# Files whose comments are documentation, in which "True if" is clearer than "Whether".
DOCUMENTED = 'crates/*/src/*.rt rust/src/* rust/programs/src/* c/include/* web/*.js web/*.ts python/src/*'.split()
# Lines with their numbers.
Lines = list[tuple[int, str]]
PUZZLE = re.compile(r'(?:Whether|What)\b')


@functools.cache
def lists():
    """The words, as a pattern for each place in which they are looked for, and the exceptions: (paths, words)."""
    parts = text_of(LIST).split('# Exceptions')
    rows = [
        [[cell.strip() for cell in line.split('|')] for line in part.splitlines()[1:] if '|' in line and line[0] != '#']
        for part in parts
    ]
    patterns = {}
    for scope in ('pages', 'comments'):
        each = [
            re.escape(word) for words, _, where in rows[0] if where in (scope, 'both') for word in words.split(', ')
        ]
        patterns[scope] = re.compile(
            r'(?<![\w/-])(?:' + '|'.join(sorted(each, key=len, reverse=True)) + r')(?![\w/-])', re.I
        )
    return patterns, [(path, set(words.split(', '))) for path, words, _ in rows[1]]


def without(pattern: re.Pattern[str], text: str) -> str:
    """The text without what the pattern finds. Its lines stay in place."""
    return pattern.sub(lambda found: re.sub(r'[^\n]', ' ', found[0]), text)


def is_allowed(name: str, word: str) -> bool:
    return any(fnmatch.fnmatch(name, path) and (word.lower() in words or '*' in words) for path, words in lists()[1])


def of_python(text: str) -> tuple[Lines, Lines]:
    """(line, text) of each comment, docstring and other string of Python."""
    comments, strings, before = [], [], tokenize.NEWLINE
    for token in tokenize.generate_tokens(io.StringIO(text).readline):
        is_statement = before in (tokenize.NEWLINE, tokenize.INDENT, tokenize.DEDENT, tokenize.NL, tokenize.COMMENT)
        if token.type == tokenize.COMMENT:
            comments.append((token.start[0], token.string))
        elif token.type == tokenize.STRING:
            (comments if is_statement and '"""' in token.string[:4] else strings).append((token.start[0], token.string))
        before = token.type
    return comments, strings


def of_lines(text: str, mark: str, blocks: bool) -> tuple[Lines, Lines]:
    """(line, text) of each comment and string of a language with this mark of comments. A mark in a string is none."""
    comments, strings, is_inside = [], [], False
    for number, line in enumerate(text.splitlines(), 1):
        is_comment = is_inside or blocks and bool(re.match(r'\s*/\*', line))
        is_inside = is_comment and '*/' not in line
        marks = re.finditer(rf'(?:^|(?<=\s))(?:{mark})(?=[\s/!*]|$)', line)
        starts = (it.start() for it in marks if line[: it.start()].count('"') % 2 == 0)
        start = 0 if is_comment else next(starts, len(line))
        comments.append((number, line[start:]))
        strings += [(number, it[0]) for it in re.finditer(r'"(?:\\.|[^"\\])*"|\'[^\']*\s[^\']*\'', line[:start])]
    return comments, strings


def parts_of(path: str, text: str) -> tuple[Lines, Lines]:
    """The comments and the strings of a source, as pairs of a line and a text."""
    ending = os.path.splitext(path)[1]
    if ending in ('.py', '.pyi') or ending == '' and re.match(r'#!.*python3', text):
        return of_python(text)
    if ending == '.antt':
        return of_lines(text, '--', False)
    if ending == '.html':
        return [], [(1, without(HTML, text))]
    return of_lines(text, r'//|/\*', True) if ending in LIKE_C else of_lines(text, '#', False)


def is_page(name: str) -> bool:
    return name.endswith(('.md', '.1'))


def name_of(path: str) -> str:
    """The path of a file from the top, or the path of a planted one from its temporary folder."""
    if path.startswith(TOP + os.sep):
        return os.path.relpath(path, TOP)
    return os.path.relpath(path, tempfile.gettempdir()).partition(os.sep)[2]


def lines_with_words(*paths: str) -> Iterator[str]:
    """Each use of a word of the list, with its line."""
    for path in paths:
        name, text = name_of(path), text_of(path)
        if is_page(name):
            parts, scope = [(1, without(CODE, text))], 'pages'
        else:
            comments, strings = parts_of(path, text)
            is_read = (
                name.startswith('message')
                or not NOT_READ.search(name)
                and any(fnmatch.fnmatch(name, it) for it in MESSAGES)
            )
            strings = [(line, VALUE.sub(' ', it)) for line, it in strings] if is_read else []
            parts, scope = [(line, without(CODE, it)) for line, it in comments + strings], 'comments'
        for line, part in parts:
            for found in lists()[0][scope].finditer(part):
                if not is_allowed(name, found[0]):
                    yield f'{path}:{line + part.count(chr(10), 0, found.start())}: {found[0]}'


def puzzles(*paths: str) -> Iterator[str]:
    """Each doc comment that begins with a word that a reader has to solve."""
    for path in paths:
        before = ''
        for line, part in parts_of(path, text_of(path))[0]:
            shown = part.strip().lstrip('/!*"').strip()
            is_begun = not before.strip() and part.lstrip().startswith(('///', '/**', '"""'))
            if is_begun and PUZZLE.match(shown) and not is_allowed(name_of(path), '*'):
                yield f'{path}:{line}: {shown[:60]}'
            before = '' if part.lstrip().startswith('"""') else part
