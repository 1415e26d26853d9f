"""Names that differ: paths of Rattle's library, modules that a tree has in another form, and Rattle's prelude."""
from typing import Sequence

from rust.eraser.contracts import drop, first_with_comments
from rust.eraser.tokens import Refused, Token, closing, following, preceding

# Paths of Rattle's standard library and of its ports, and those of their replacements.
LIBRARY_PATHS = {'std::alloc': 'crate::rattle', 'std::boxed': 'crate::buffers', 'std::simd': 'crate::rattle::simd'}
PROGRAM_PATHS = {
    'std::alloc': 'crate::rattle',
    'str::from_utf8': 'std::str::from_utf8',
    **{f'std::{name}': f'crate::rattle::{name}' for name in ('env', 'fs', 'io', 'process', 'rt')},
    **{name: f'crate::rattle::{name}' for name in ('itoa', 'memchr', 'serde_json')},
}
# Files that are compiled again over other vectors, which they take from the module above them.
TWICE = 'twox_core/src/xxhash3/large'
# Names that a file imports from `crate::rattle::prelude`, and the words that need them.
LIBRARY_PRELUDE = {'Clone': {'Clone', 'clone'}, 'prove': {'prove'}}
PROGRAM_PRELUDE = {name: {name} for name in ('AllocGlobal', 'HostRuntime', 'String', 'Vec', 'vec')}
WITH_SERDE = 'over JSON and random numbers, for which the crate has serde and the standard library'
# Modules that a tree lacks: the module in their place, or '' for none, and the reason.
MODULES = {
    'twox_words/src/barriers.rt': ('crate::rattle::barriers', 'in Rattle each is only its value'),
    'twox_core/src/xxhash3/streaming/buffers.rt': (
        'crate::buffers',
        'secrets that users pass are an unsafe trait over `AsRef`',
    ),
    'twox_plain/src/by_stripes.rt': ('', 'for a target with no vectors, where the toolchain compiles'),
    'twox_plain/src/saved_text.rt': ('', WITH_SERDE),
    **{
        f'twox_plain/src/xxhash{bits}/{name}.rt': ('', WITH_SERDE)
        for bits in (32, 64)
        for name in ('saved', 'build_hashers')
    },
}


def begins_path(tokens, i):
    """True if no path and no call goes on at a word."""
    before = preceding(tokens, i)
    return tokens[i].kind == 'word' and (before < 0 or tokens[before].text not in (':', '.', '$'))


def behind_colons(tokens, i):
    """The token behind the two colons that follow a word, or None."""
    first = following(tokens, i)
    second = following(tokens, first)
    third = following(tokens, second)
    return third if third < len(tokens) and tokens[first].text == tokens[second].text == ':' else None


def segments(tokens, i):
    """The words of the path that begins at a word, and the place of each. A group of names is the last one."""
    found = [(tokens[i].text, i)]
    while (place := behind_colons(tokens, i)) is not None and tokens[place].kind in ('word', 'mark'):
        found.append((tokens[place].text, place))
        if tokens[place].kind == 'mark':
            break
        i = place
    return found


def rename_paths(tokens: list[Token], paths: dict[str, str]) -> None:
    """Puts the paths of replacements in the place of those of Rattle's library."""
    for i, token in enumerate(tokens):
        if not begins_path(tokens, i):
            continue
        found = segments(tokens, i)
        if [word for word, _ in found] == ['std', '{']:
            split_group(tokens, i, found[1][1], paths)
        for count in range(1, len(found) + 1):
            new = paths.get('::'.join(word for word, _ in found[:count]))
            if new and len(found) > 1:
                drop(tokens, i, found[count - 1][1])
                tokens[i] = Token('edited', new, token.line)
                break


def split_group(tokens, i, begin, paths):
    """Imports each module of `use std::{a, b};` by itself if one has a replacement."""
    end = closing(tokens, begin)
    names = [token.text for token in tokens[begin + 1 : end] if not token.is_blank() and token.text != ',']
    new = [paths.get(f'std::{name}', f'std::{name}') for name in names]
    if not any(f'std::{name}' in paths for name in names):
        return
    use, stop = preceding(tokens, i), following(tokens, end)
    if tokens[use].text != 'use' or tokens[stop].text != ';' or not all(name.isidentifier() for name in names):
        raise Refused(f'line {tokens[i].line}: a group of `std` with more than modules')
    drop(tokens, use, stop)
    lines = '\n'.join(f'use {path};' for path in sorted(new))
    tokens[use] = Token('edited', lines, tokens[use].line)


def rename_roots(tokens: list[Token], tree: str, crate: str, crates: Sequence[str]) -> None:
    """Paths from a crate's root begin at its module below `tree`."""
    places = [i for i, token in enumerate(tokens) if not token.is_blank()]
    for at, place in enumerate(places):
        token, before = tokens[place], tokens[places[at - 1]].text if at else ''
        follows = ''.join(tokens[i].text for i in places[at + 1 : at + 3])
        if token.kind != 'word' or token.text not in ('crate', *crates):
            continue
        if token.text == 'crate' and follows.startswith(')') and before == '(':
            continue
        if follows != '::' or before in (':', '.', '$'):
            raise Refused(f'line {token.line}: `{token.text}` that begins no path')
        tokens[place] = Token('edited', f'{tree}::{crate if token.text == "crate" else token.text}', token.line)


def replace_modules(tokens: list[Token], file: str) -> None:
    """Imports the module in the place of each that the tree lacks, or drops its declaration and its exports."""
    folder = file.removesuffix('.rt').removesuffix('/lib')
    for i, token in enumerate(tokens):
        name = following(tokens, i)
        if token.kind != 'word' or token.text not in ('mod', 'use') or name >= len(tokens):
            continue
        module = MODULES.get(f'{folder}/{tokens[name].text}.rt')
        if module is None:
            continue
        if not module[0]:
            drop_statement(tokens, i)
        elif token.text == 'mod':
            tokens[i], tokens[name] = Token('edited', 'use', token.line), Token('edited', module[0], token.line)


def drop_statement(tokens, i):
    """Drops a `mod` or `use` with its visibility."""
    first = preceding(tokens, i)
    first = first if first >= 0 and tokens[first].text == 'pub' else i
    end = next(k for k in range(i, len(tokens)) if tokens[k].text == ';')
    drop(tokens, first_with_comments(tokens, first), end)


def prelude_of(tokens: list[Token], names: dict[str, set[str]]) -> list[str]:
    """The names of Rattle's prelude that a file needs."""
    texts = {token.text for i, token in enumerate(tokens) if token.kind == 'word' and not is_derived(tokens, i)}
    return sorted(name for name, needs in names.items() if needs & texts)


def import_prelude(tokens: list[Token], file: str, names: list[str]) -> None:
    """Imports names of Rattle's prelude, behind the comments at the beginning of a file."""
    lines = f'use crate::rattle::prelude::{braced(names)};\n' if names else ''
    if file == f'{TWICE}.rt':
        lines += 'use crate::rattle::simd;\n'
    if lines:
        place = next(i for i, token in enumerate(tokens) if not token.is_blank())
        tokens.insert(place, Token('edited', lines, tokens[place].line))


def is_derived(tokens, i):
    """True for a name in `#[derive(..)]`."""
    while tokens[i].kind == 'word' or tokens[i].text == ',' or tokens[i].is_blank():
        i -= 1
    return tokens[i].text == '(' and tokens[preceding(tokens, i)].text == 'derive'


def braced(names):
    return names[0] if len(names) == 1 else '{' + ', '.join(names) + '}'


def paths_of(paths: dict[str, str], file: str) -> dict[str, str]:
    return {**paths, 'std::simd': 'super::simd'} if file.startswith(f'{TWICE}/') else paths
