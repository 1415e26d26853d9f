"""Rattle's tokens, as the toolchain reads them. A contract is one token including its braces, so later passes don't
look inside."""
import json
import os
import re
import shutil
import subprocess
import tempfile
from dataclasses import dataclass

# Splits code that has no contract and no comment: the code of one of the toolchain's tokens, or the pattern of an edit.
CODE = re.compile(
    r"""
    (?P<space>\s+)
  | (?P<comment>//[^\n]*)
  | (?P<string>[bc]?r(?P<hashes>\#*)".*?"(?P=hashes) | [bc]?"(?:\\.|[^"\\])*")
  | (?P<char>b?'(?:\\(?:x..|u\{[^}]*\}|.)|[^\\'\n])')
  | (?P<life>'\w+)
  | (?P<word>\w+)
  | (?P<mark>.)
""",
    re.X | re.S,
)
OPEN = {'(': ')', '[': ']', '{': '}'}
CLOSE = set(OPEN.values())
BLOCK_COMMENT = re.compile(r'/\*|\*/')
# Control characters but a line feed, marks of direction, and line ends that only one of the languages knows.
NO_TEXT = re.compile('[\x00-\x09\x0b-\x1f\x7f\x85\u200e\u200f\u2028-\u202e\u2066-\u2069\ufeff]')


class Refused(Exception):
    """The eraser has no rule for a form in a file."""


@dataclass
class Token:
    kind: str  # space, comment, string, char, life, word, mark; clause, use, item, field: contracts; gone
    text: str
    line: int

    def is_blank(self):
        return self.kind in ('space', 'comment', 'gone')


def rattle() -> str:
    found = shutil.which('rt')
    if not found:
        raise Refused('the sources have changed since they were erased: this needs the toolchain `rt`')
    return os.path.join(os.path.dirname(os.path.realpath(found)), 'rattle')


def toolchain_tokens(texts: dict[str, str]) -> dict[str, list]:
    """The toolchain's tokens of each file, by name: line, first byte, end, kind and text. Comments are none."""
    with tempfile.TemporaryDirectory() as folder:
        paths = [os.path.join(folder, f'{number}.rt') for number in range(len(texts))]
        for path, text in zip(paths, texts.values()):
            with open(path, 'w', encoding='utf-8', newline='') as file:
                file.write(text)
        done = subprocess.run([rattle(), 'fmt', '--tokens', *paths], capture_output=True, text=True)
    if done.returncode:
        reason = re.search(r'(\d+)\.rt:(.*)', done.stderr)
        raise Refused(f'{list(texts)[int(reason[1])]}: line {reason[2]}' if reason else done.stderr[:300])
    found = []
    for line in done.stdout.splitlines():
        if line.startswith('file '):
            found.append([])
        else:
            number, start, end, kind, text = line.split(' ', 4)
            found[-1].append((int(number), int(start), int(end), kind, json.loads(text)))
    return dict(zip(texts, found))


def lex(text: str, spans: list) -> list[Token]:
    """The tokens of a file, of which the toolchain's are given. Joined, they are the file."""
    if bad := NO_TEXT.search(text):
        raise Refused(f'line {text.count(chr(10), 0, bad.start()) + 1}: the character {bad[0]!r}')
    data, tokens, at, i, line = text.encode(), [], 0, 0, 1
    while i < len(spans):
        first = spans[i]
        tokens += blanks(data[at : first[1]].decode(), line)
        kind, after = contract(spans, i)
        at, i, line = spans[after - 1][2], after, first[0]
        part = data[first[1] : at].decode()
        tokens += [Token(kind, part, line)] if kind else parts_of_code(part, first)
        line += part.count('\n')
    return tokens + blanks(data[at:].decode(), line)


def contract(spans, i):
    """The kind of the contract that begins at `spans[i]`, or '' for code, and the place after it."""
    line, _, _, kind, word = spans[i]
    if kind in ('Code', 'Literal') and not (word == 'ghost' and spans[i + 1][3] == 'Head'):
        return '', i + 1
    if kind == 'Code':
        end = next(k for k in range(i, len(spans)) if spans[k][3:] == ('Code', ';'))
        return 'use', end + 1
    if kind != 'Head':
        raise Refused(f'line {line}: the toolchain reads no code here')
    end = next(k for k in range(i, len(spans)) if spans[k][3] == 'End') + 1
    if word in ('requires', 'ensures'):
        return 'clause', end
    if word != 'ghost' or spans[end][3:] not in (('Code', ';'), ('Code', ',')):
        raise Refused(f'line {line}: a `ghost` of an unknown form')
    return ('item' if spans[end][4] == ';' else 'field'), end + 1


def parts_of_code(part, span):
    """The tokens of one of the toolchain's, whose name may not be in « »."""
    if part != span[4]:
        raise Refused(f'line {span[0]}: the name {part}')
    return split(part, span[0])


def split(text: str, line: int) -> list[Token]:
    found, at = [], 0
    while at < len(text):
        match = CODE.match(text, at)
        found.append(Token('string' if match.lastgroup == 'hashes' else match.lastgroup, match[0], line))
        line, at = line + match[0].count('\n'), match.end()
    return found


def blanks(text, line):
    """The white space and the comments between two of the toolchain's tokens."""
    found, at = [], 0
    while at < len(text):
        if text.startswith('/*', at):
            kind, end = 'comment', end_of_nested_comment(text, at, line)
        elif text.startswith('//', at):
            kind, end = 'comment', (text + '\n').index('\n', at)
        else:
            kind, end = 'space', at + len(text[at:]) - len(text[at:].lstrip(' \n'))
        if end == at:
            raise Refused(f'line {line}: {text[at]!r} between tokens')
        found.append(Token(kind, text[at:end], line))
        line, at = line + text.count('\n', at, end), end
    return found


def end_of_nested_comment(text, start, line):
    depth = 0
    for mark in BLOCK_COMMENT.finditer(text, start):
        depth += 1 if mark[0] == '/*' else -1
        if depth == 0:
            return mark.end()
    raise Refused(f'line {line}: a comment without an end')


def following(tokens: list[Token], i: int) -> int:
    """The index of the next token that isn't blank, or the number of tokens."""
    i += 1
    while i < len(tokens) and tokens[i].is_blank():
        i += 1
    return i


def preceding(tokens: list[Token], i: int) -> int:
    """The index of the token before that isn't blank, or -1."""
    i -= 1
    while i >= 0 and tokens[i].is_blank():
        i -= 1
    return i


def closing(tokens: list[Token], i: int) -> int:
    """The index of the bracket that closes the one at `i`."""
    expected = []
    for at in range(i, len(tokens)):
        token = tokens[at]
        if token.kind != 'mark':
            continue
        if token.text in OPEN:
            expected.append(OPEN[token.text])
        elif token.text in CLOSE:
            if not expected or expected.pop() != token.text:
                break
            if not expected:
                return at
    raise Refused(f'line {tokens[i].line}: a bracket that is not closed')
