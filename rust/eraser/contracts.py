"""Removes contracts from a file: clauses, ghost items, tactics, models, and `Drop` of a type."""
import re

from rust.eraser.tokens import CLOSE, OPEN, Refused, Token, closing, following, preceding

ALLOWED_ATTRIBUTES = {'inline', 'repr', 'must_use', 'cold', 'derive'}
# `Hash`, `PartialOrd` and `Ord` are absent: it is not stated that Rattle's derives do what Rust's do.
ALLOWED_DERIVES = {'Clone', 'Copy', 'Debug', 'PartialEq', 'Eq'}
# Tokens that are read alike whatever is beside them.
SEPARATE = {*OPEN, *CLOSE, ',', ';'}
FENCE = re.compile(r'(//[/!] )```(\w*)')


def refuse(token, why):
    raise Refused(f'line {token.line}: {why}')


def drop(tokens: list[Token], first: int, last: int) -> None:
    for i in range(first, last + 1):
        tokens[i] = Token('gone', '', tokens[i].line)


def first_with_comments(tokens: list[Token], i: int) -> int:
    """The first token of the comments on the lines right above token `i`, and of attributes."""
    while True:
        before = i - 1
        if before < 0 or tokens[before].kind != 'space' or tokens[before].text.count('\n') != 1:
            return i
        comment = tokens[before - 1]
        begins_line = before < 2 or tokens[before - 2].kind == 'space' and '\n' in tokens[before - 2].text
        if comment.kind != 'comment' or comment.text.startswith('//!') or not begins_line:
            return i
        i = before - 1


def drop_clauses(tokens):
    """Drops the clauses of each function's head. A clause anywhere else is refused."""
    i = 0
    while i < len(tokens):
        if tokens[i].kind == 'clause':
            refuse(tokens[i], 'a clause outside of the head of a function')
        after = following(tokens, i)
        if tokens[i].kind == 'word' and tokens[i].text == 'fn' and after < len(tokens) and tokens[after].kind == 'word':
            i = drop_clauses_of_head(tokens, after)
        i += 1


def drop_clauses_of_head(tokens, i):
    parameters, dropped = False, False
    while tokens[i].text not in ('{', ';') or tokens[i].kind != 'mark':
        if tokens[i].kind == 'clause':
            if not parameters:
                refuse(tokens[i], 'a clause before the parameters')
            drop(tokens, first_with_comments(tokens, i), i)
            dropped = True
        elif tokens[i].kind in ('item', 'field', 'use'):
            refuse(tokens[i], 'a `ghost` in the head of a function')
        elif tokens[i].kind == 'mark' and tokens[i].text in ('(', '['):
            parameters = parameters or tokens[i].text == '('
            i = closing(tokens, i)
        i += 1
    if dropped:
        before = preceding(tokens, i)
        if any(token.kind == 'comment' for token in tokens[before:i]):
            refuse(tokens[i], 'a comment behind the clauses')
        drop(tokens, before + 1, i - 1)
        if tokens[i].text == '{':
            tokens[i - 1] = Token('space', ' ', tokens[i].line)
    return i - 1


def drop_ghosts(tokens):
    for i, token in enumerate(tokens):
        if token.kind == 'use':
            drop(tokens, i, i)
        elif token.kind == 'item':
            drop(tokens, first_with_comments(tokens, i), i)
        elif token.kind == 'field':
            first, before = i, preceding(tokens, i)
            if tokens[before].text == 'pub':
                first = before
            elif tokens[before].text == ')':
                refuse(token, 'a ghost field that is seen in a part of the crate')
            drop(tokens, first_with_comments(tokens, first), i)


def drop_models(tokens):
    """Drops each `impl Model for .. { .. }`, whose body then has nothing left."""
    for i, token in enumerate(tokens):
        if token.kind != 'word' or token.text != 'Model' or tokens[following(tokens, i)].text != 'for':
            continue
        first = preceding(tokens, i)
        if tokens[first].text == '>':
            while tokens[first].text != '<':
                first -= 1
            first = preceding(tokens, first)
        if tokens[first].text != 'impl':
            refuse(token, 'a `Model` of an unknown form')
        begin = following(tokens, i)
        while tokens[begin].text != '{':
            begin = following(tokens, begin)
        end = closing(tokens, begin)
        if following(tokens, begin) != end:
            refuse(token, 'an `impl Model` with more than ghost items')
        drop(tokens, first_with_comments(tokens, first), end)


def drop_imports_of_models(tokens):
    """Drops `use .. Model;`, and `Model` of a group. Only contracts speak of models."""
    for i, token in enumerate(tokens):
        if token.kind != 'word' or token.text != 'Model':
            continue
        before, after = tokens[preceding(tokens, i)].text, tokens[following(tokens, i)].text
        if (before, after) == (':', ';'):
            first = next(k for k in range(i, -1, -1) if tokens[k].text == 'use')
            drop(tokens, first, following(tokens, i))
        elif (before, after) == ('{', ','):
            drop(tokens, i, following(tokens, following(tokens, i)) - 1)
        else:
            refuse(token, 'a `Model` of an unknown form')


def drop_attributes(tokens):
    i = 0
    while i < len(tokens):
        if tokens[i].kind == 'mark' and tokens[i].text == '#':
            begin = following(tokens, i)
            if tokens[begin].text == '!':
                begin = following(tokens, begin)
            if tokens[begin].text != '[':
                refuse(tokens[i], 'a `#` that begins no attribute')
            name, end = tokens[following(tokens, begin)].text, closing(tokens, begin)
            if name == 'tactic':
                drop(tokens, i, end)
            elif (
                name not in ALLOWED_ATTRIBUTES
                or name == 'repr'
                and [token.text for token in tokens[begin + 2 : end]] != ['(', 'C', ')']
            ):
                refuse(tokens[i], f'the attribute `{"".join(token.text for token in tokens[begin + 1:end])}`')
            elif name == 'derive':
                drop_derive(tokens, i, begin, end)
            i = end
        i += 1


def drop_derive(tokens, first, begin, last):
    places = [i for i in range(begin + 1, last) if tokens[i].kind == 'word' and tokens[i].text != 'derive']
    names = {tokens[i].text for i in places}
    if names - ALLOWED_DERIVES - {'Drop'}:
        refuse(tokens[first], f'derives of {", ".join(sorted(names - ALLOWED_DERIVES))}')
    if names == {'Drop'}:
        drop(tokens, first, last)
    elif 'Drop' in names:
        (place,) = (i for i in places if tokens[i].text == 'Drop')
        before = preceding(tokens, place)
        if tokens[before].text != ',':
            refuse(tokens[first], 'a derive that begins with `Drop`')
        drop(tokens, before, place)


def drop_bounds(tokens):
    """Drops `+ Drop`, and `: Drop` of a type parameter or of a trait. In Rust every type may be dropped."""
    for i, token in enumerate(tokens):
        if token.kind != 'word' or token.text != 'Drop':
            continue
        before, after = preceding(tokens, i), following(tokens, i)
        if (
            tokens[before].text not in ('+', ':')
            or tokens[before - 1].text == ':'
            or tokens[after].text not in ('>', ',', '+', '{', ';')
        ):
            refuse(token, '`Drop` of an unknown form')
        if (
            tokens[before].text == ':'
            and tokens[after].text not in ('>', ',')
            and not is_supertrait(tokens, before, after)
        ):
            refuse(token, '`Drop` as a bound of an unknown form')
        drop(tokens, before, i)


def is_supertrait(tokens, before, after):
    """True for `trait NAME: Drop {`, whose colon and brace these are."""
    name = preceding(tokens, before)
    return tokens[after].text == '{' and tokens[name].kind == 'word' and tokens[preceding(tokens, name)].text == 'trait'


def check_ends(tokens):
    """Refuses two tokens that removed ones separated, and that would be read as others without a space."""
    for i, token in enumerate(tokens):
        before = next((k for k in range(i - 1, -1, -1) if tokens[k].kind != 'gone'), i)
        if token.kind in ('gone', 'space') or before in (i, i - 1) or tokens[before].kind == 'space':
            continue
        if tokens[before].text not in SEPARATE and token.text not in SEPARATE | {'>'}:
            refuse(token, f'`{tokens[before].text}` beside `{token.text}` after a removal')


def label_examples(tokens):
    """An example without a language would be compiled by rustdoc, and is Rattle."""
    begins = False
    for token in tokens:
        fence = FENCE.fullmatch(token.text) if token.kind == 'comment' else None
        if fence:
            begins = not begins
            token.text = fence[1] + ('```rattle' if begins and not fence[2] else '```' + fence[2])


def without_contracts(tokens: list[Token]) -> list[Token]:
    """The tokens without contracts, with `gone` tokens in their places."""
    drop_clauses(tokens)
    drop_ghosts(tokens)
    drop_models(tokens)
    drop_imports_of_models(tokens)
    drop_attributes(tokens)
    drop_bounds(tokens)
    check_ends(tokens)
    label_examples(tokens)
    return tokens


def merged(before, after):
    """The space in place of the removed tokens between two spaces."""
    if '\n' not in after:
        return before or after
    if '\n' not in before and before:
        return after
    lines = min(2, max(before.count('\n'), after.count('\n')))
    return '\n' * lines + after.rsplit('\n', 1)[1]


def tidied(tokens: list[Token]) -> str:
    """The text, without the lines and spaces that removed tokens leave."""
    lines = []
    for token in tokens:
        if token.kind == 'gone':
            if not lines or lines[-1].kind != 'gone':
                lines.append(token)
        elif token.kind == 'space' and len(lines) > 1 and lines[-1].kind == 'gone' and lines[-2].kind == 'space':
            space = Token('space', merged(lines[-2].text, token.text), token.line)
            lines[-2:] = [space]
        elif token.kind == 'space' and lines and lines[-1].kind == 'gone' and len(lines) == 1:
            lines[-1:] = []
        else:
            lines.append(token)
    lines = [token for token in lines if token.kind != 'gone']
    for i, token in enumerate(lines):
        begins_block, ends_block = lines[i - 1].text == '{', i + 1 < len(lines) and lines[i + 1].text == '}'
        if token.kind == 'space' and i and begins_block and ends_block:
            token.text = ''
        elif token.kind == 'space' and token.text.count('\n') > 1 and i and (begins_block or ends_block):
            token.text = '\n' + token.text.rsplit('\n', 1)[1]
    return ''.join(token.text for token in lines)
