"""The words of checks/docs/identifiers.txt in identifiers of Python, shell, C and JavaScript: names are split at `_`
and at capital letters."""
import fnmatch
import functools
import io
import os
import re
import tokenize
from typing import Iterator

from checks.lib.tools import text_of

from . import words

LIST = 'checks/docs/identifiers.txt'
LIKE_C = ('.c', '.h', '.js', '.mjs', '.ts')
PART = re.compile(r'[A-Z]+(?![a-z])|[A-Z]?[a-z]+')
NAME = re.compile(r'[A-Za-z_$][\w$]*')
# Comments, strings, and values in strings, which are code.
OF_C = re.compile(r'//[^\n]*|/\*.*?\*/|"(?:\\.|[^"\\\n])*"|\'(?:\\.|[^\'\\\n])*\'|`(?:\\.|[^`\\])*`', re.S)
OF_SHELL = re.compile(r"(?:^|(?<=\s))#[^\n]*|'[^']*'")
VALUE = re.compile(r'\$?\{([^{}]*)\}')
SHELL_NAME = re.compile(r'\$\{?[#!]?([A-Za-z_]\w*)|\b([A-Za-z_]\w*)(?=\+?=|\(\))|(?:local|read -r|for) ([\w ]+)')


@functools.cache
def lists():
    """The words, and the exceptions: (paths, words)."""
    wrong, allowed = (
        [[cell.strip() for cell in line.split('|')] for line in part.splitlines()[1:] if line and line[0] != '#']
        for part in text_of(LIST).split('# Exceptions')
    )
    return (
        {word for names, _ in wrong for word in names.split(', ')},
        [(path, set(names.split(', '))) for path, names, _ in allowed],
    )


def without(pattern, text):
    """The text without what the pattern finds, but with the values in it. Its lines stay in place."""
    return pattern.sub(lambda it: ' '.join(VALUE.findall(it[0])) + '\n' * it[0].count('\n'), text)


def names_of_python(text):
    for token in tokenize.generate_tokens(io.StringIO(text).readline):
        if token.type == tokenize.NAME:
            yield token.start[0], token.string
        elif token.type == tokenize.STRING and re.match(r'[rR]?[fF]', token.string):
            yield from ((token.start[0], name) for value in VALUE.findall(token.string) for name in NAME.findall(value))


def names_of(path: str, text: str) -> Iterator[tuple[int, str]]:
    """(line, name) of each identifier of a source."""
    ending = os.path.splitext(path)[1]
    if ending in ('.py', '.pyi') or ending == '' and re.match(r'#!.*python3', text):
        yield from names_of_python(text)
    elif ending in LIKE_C:
        for number, line in enumerate(without(OF_C, text).splitlines(), 1):
            yield from ((number, name) for name in NAME.findall(line))
    else:
        for number, line in enumerate(OF_SHELL.sub(lambda it: '\n' * it[0].count('\n'), text).splitlines(), 1):
            for found in SHELL_NAME.finditer(line):
                yield from ((number, name) for group in found.groups() if group for name in group.split())


def found(path: str) -> Iterator[tuple[int, str, str]]:
    """(line, name, word) of each identifier with a word of the list, also of those that are allowed."""
    for number, name in names_of(path, text_of(path)):
        for part in PART.findall(name):
            if part.lower() in lists()[0]:
                yield number, name, part.lower()


def is_allowed(path: str, word: str) -> bool:
    name = words.name_of(path)
    return any(fnmatch.fnmatch(name, pattern) and (word in names or '*' in names) for pattern, names in lists()[1])


def wrong_names(*paths: str) -> Iterator[str]:
    """Each identifier with a word of the list, once in a file."""
    for path in paths:
        lines: dict[str, int] = {}
        for number, name, word in found(path):
            if not is_allowed(path, word):
                lines.setdefault(name, number)
        yield from (f'{path}:{number}: {name}' for name, number in lines.items())
