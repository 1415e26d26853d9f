"""The edits after the contracts are removed: one table, each row with its reason and its count.

A pattern is a sequence of tokens, `$name` matches one word, and white space is ignored. A row that applies more or
fewer times than its count fails, and so does one whose match has a comment."""
import functools
import hashlib
import re
from dataclasses import dataclass

from rust.eraser.tokens import Refused, Token, closing, split


@dataclass(frozen=True)
class Edit:
    name: str
    old: str
    new: str
    count: int
    why: str
    files: str = '.*'  # a regular expression for the whole path below crates/
    function: str = ''  # the function in whose head or body it applies
    was: str = ''  # the sum of that function's code, all of which the row's reason is about


FORMATTER = 'a formatter of Rattle is generic in what it writes to'

EDITS = (
    Edit(
        'formatter',
        'fn fmt<W: fmt::Write>(&self, f: &mut fmt::Formatter<W>)',
        "fn fmt(&self, f: &mut fmt::Formatter<'_>)",
        8,
        FORMATTER,
    ),
)
# Those of the programs.
ORIGINALS = 'the messages of xxhsum 0.8.1 and the options and lines of 0.8.3'
PROGRAM_EDITS = (
    Edit(
        'formatter',
        'fn fmt<W: fmt::Write>(&self, f: &mut fmt::Formatter<W>)',
        "fn fmt(&self, f: &mut fmt::Formatter<'_>)",
        3,
        FORMATTER,
    ),
    Edit(
        'texts of errors',
        'write!(words, "{error}")',
        'write!(words, "{}", io::Shown(&error))',
        1,
        "the text of an error of Rust's library takes memory, and stops the process if there is none",
        files='xxh_io/src/words.rt',
        function='words_of',
        was='d651aa4a8c5e',
    ),
    Edit(
        'the line of --version',
        f'b" 0.1.0 of twox_hash, with {ORIGINALS}"',
        f'b" 0.1.0 of twox_hash, compiled by rustc from proved source, with {ORIGINALS}"',
        1,
        'it says who made the program',
        files='xxhsum_program/src/usage.rt',
    ),
)


def significant(text):
    return [token.text for token in split(text, 1) if not token.is_blank()]


def matched(tokens, places, at, pattern):
    """The words that a pattern's placeholders match from `places[at]` on, or None."""
    if at + len(pattern) > len(places):
        return None
    found = {}
    for part, place in zip(pattern, places[at:]):
        token = tokens[place]
        if part.startswith('$'):
            if token.kind != 'word' or found.setdefault(part, token.text) != token.text:
                return None
        elif token.text != part:
            return None
    return found


@functools.cache
def parts_of(pattern: str) -> list[str]:
    """The tokens of a pattern, with `$name` as one."""
    return (
        significant(re.sub(r'\$(\w+)', r'ˑ\1', pattern))
        if '$' not in pattern
        else [part.replace('ˑ', '$', 1) for part in significant(re.sub(r'\$(\w+)', r'ˑ\1', pattern))]
    )


def places_in(tokens, function):
    """The tokens that aren't blank, of the one function of a name or of all."""
    places = [i for i, token in enumerate(tokens) if not token.is_blank()]
    if not function:
        return places
    head = next(i for i, after in zip(places, places[1:]) if tokens[i].text == 'fn' and tokens[after].text == function)
    begin = next(i for i in places if i > head and tokens[i].text == '{')
    end = closing(tokens, begin)
    return [i for i in places if begin <= i <= end]


def sums_of(tokens: list[Token]) -> dict[str, str]:
    """A sum of the code of each function, by its name. A name that occurs twice has none."""
    places, found = [i for i, token in enumerate(tokens) if not token.is_blank() and token.kind != 'comment'], {}
    for i, after in zip(places, places[1:]):
        if tokens[i].text == 'fn' and tokens[after].kind == 'word':
            depth, begin = 0, None
            for k in places:
                if k > after:
                    depth += {'[': 1, ']': -1}.get(tokens[k].text, 0)
                    if depth == 0 and tokens[k].text in ('{', ';'):
                        begin = k
                        break
            if begin is None or tokens[begin].text == ';':
                continue
            end = closing(tokens, begin)
            texts = [tokens[k].text for k in places if i <= k <= end]
            name = tokens[after].text
            found[name] = '' if name in found else hashlib.sha256(' '.join(texts).encode()).hexdigest()[:12]
    return found


def apply(edit: Edit, tokens: list[Token], sums: dict[str, str]) -> int:
    """Applies an edit wherever it matches. Returns how often."""
    if edit.function and sums.get(edit.function) not in edit.was.split():
        raise Refused(
            f'the edit `{edit.name}` is for other code of `{edit.function}`: read all of it, and state '
            f'{sums.get(edit.function)}'
        )
    pattern, count = parts_of(edit.old), 0
    places = places_in(tokens, edit.function)
    at = 0
    while at < len(places):
        found = matched(tokens, places, at, pattern)
        before = tokens[places[at - 1]].text if at else ''
        if found is None or (pattern[0] in ('std', 'crate') and before == ':'):
            at += 1
            continue
        first, last = places[at], places[at + len(pattern) - 1]
        if any(token.kind == 'comment' for token in tokens[first : last + 1]):
            raise Refused(f'line {tokens[first].line}: a comment in what the edit `{edit.name}` takes')
        text = re.sub(r'\$\w+', lambda name: found[name[0]], edit.new)
        for i in range(first, last + 1):
            tokens[i] = Token('gone', '', tokens[i].line)
        if text:
            tokens[first] = Token('edited', text, tokens[first].line)
        count += 1
        at += len(pattern)
    return count
