"""A second reader of the erased source, which shares no code with rust/erase.

It reads a crate's file and the erased one as tokens, and walks both. Where they differ, only the removal of a
contract or a replacement of the list below may explain it. It is correct if every erased file is its source without
contracts, with these replacements; it reports what it can't explain."""
import os
import re
from dataclasses import dataclass
from typing import Optional

from checks.lib.tools import text_of

CRATES = ('twox_words', 'twox_plain', 'twox_core', 'twox_hash')
OF_PROGRAMS = """
    xxh_io xxh_program xxh xxhsum_line xxhsum_options xxhsum_audit xxhsum_fs xxhsum_output xxhsum_program
    xxhsum_app xxhsum
""".split()
SAVED = ('saved_text', 'xxhash32/saved', 'xxhash64/saved')
BRACKETS = {'(': ')', '[': ']', '{': '}'}
LITERAL = re.compile(
    r"""[bc]?r(?P<fence>\#*)".*?"(?P=fence) | [bc]?"(?:[^"\\]|\\.)*" | b?'(?:[^'\\\n]|\\x..|\\u\{\w+\}|\\.)'
                         | '?\w+""",
    re.S | re.X,
)
ANTT = re.compile(r'"(?:[^"\\\n]|\\.)*"|--[^\n]*|\{-|[(){}.;,@"«»]|[^\s(){}.;,@"«»]+')
BLOCK_COMMENT = re.compile(r'/\*|\*/')


def tokens_of(text):
    """The tokens of a text without white space and comments. What a contract's braces hold is one token."""
    found, at, in_contract = [], 0, False
    while at < len(text):
        if text[at].isspace():
            at += 1
        elif text.startswith('//', at):
            at = (text + '\n').index('\n', at)
        elif text.startswith('/*', at):
            at = behind_comment(text, at)
        elif in_contract and text[at] == '{':
            end = behind_antt(text, at)
            found += ['{', text[at + 1 : end - 1], '}']
            at, in_contract = end, text[end:].lstrip().startswith('=')
        else:
            match = LITERAL.match(text, at)
            word = match[0] if match else text[at]
            at += len(word)
            found.append(word)
            in_contract = word in ('requires', 'ensures', 'ghost') or in_contract and word != ';'
            if word == 'use' and found[-2:-1] == ['ghost']:
                in_contract = False
    return found


def behind_antt(text, at):
    """The place after the brace that closes the one at `at`. In a contract a name is any run of characters without
    spaces and brackets, so `--` begins a comment only where a name could begin; a text in quotes ends on its line."""
    depth = 0
    for part in ANTT.finditer(text, at):
        if part[0].startswith('{-'):
            raise ValueError('a comment in braces in a contract')
        depth += {'{': 1, '}': -1}.get(part[0], 0)
        if not depth:
            return part.end()
    raise ValueError('a contract without an end')


def behind_comment(text, at):
    depth = 0
    for mark in BLOCK_COMMENT.finditer(text, at):
        depth += 1 if mark[0] == '/*' else -1
        if not depth:
            return mark.end()
    raise ValueError('a comment without an end')


def behind(tokens, at):
    """The place after the bracket that closes the one at `at`."""
    open_ones = []
    for place in range(at, len(tokens)):
        if tokens[place] in BRACKETS:
            open_ones.append(BRACKETS[tokens[place]])
        elif open_ones and tokens[place] == open_ones[-1]:
            open_ones.pop()
            if not open_ones:
                return place + 1
    raise ValueError('a bracket without an end')


def contract_at(tokens, at):
    """The number of tokens of a contract at this place, or 0. None of them may stay."""
    word, before = tokens[at], tokens[at - 1] if at else ''
    if word == 'ghost' and tokens[at + 1] == 'use':
        return tokens.index(';', at) + 1 - at
    first = at + (word == 'pub')
    if tokens[first] == 'ghost' and tokens[first + 2] in (':', '=') and tokens[first + 3] == '{':
        return behind(tokens, first + 3) + 1 - at
    if word in ('requires', 'ensures') and before not in ('.', ':'):
        place = at + 1 + (tokens[at + 1] == '*')
        place += tokens[place] != '{'
        return behind(tokens, place) - at if tokens[place] == '{' else 0
    if word == '#' and tokens[at + 1 + (tokens[at + 1] == '!') :][:2] == ['[', 'tactic']:
        return behind(tokens, at + 1 + (tokens[at + 1] == '!')) - at
    if tokens[at : at + 7] == ['#', '[', 'derive', '(', 'Drop', ')', ']']:
        return 7
    if word == 'impl':
        place = at + 1
        while tokens[place] not in ('Model', '{', ';', 'for'):
            place += 1
        if tokens[place] == 'Model':
            return behind(tokens, tokens.index('{', place)) - at
    return 0


def drop_at(tokens, at):
    """The number of tokens of `Drop` at this place, in a derive or as a bound, or 0. None may stay."""
    if tokens[at : at + 2] in ([',', 'Drop'], ['+', 'Drop']) and tokens[at + 2] in (')', '>', ',', '+', '{', ';'):
        return 2
    is_of_trait = at > 1 and tokens[at - 2] == 'trait' and tokens[at + 2] == '{'
    return 2 if tokens[at : at + 2] == [':', 'Drop'] and (tokens[at + 2] in ('>', ',') or is_of_trait) else 0


# The text of a file, the erased text in its place, and the files in which that is allowed.
REPLACEMENTS = [
    (tokens_of(old), tokens_of(new), files)
    for old, new, files in (
        ('std::alloc', 'crate::rattle', '*'),
        ('std::boxed', 'crate::buffers', '*'),
        ('std::simd', 'super::simd', 'twox_core/xxhash3/large/*'),
        ('std::simd', 'crate::rattle::simd', 'twox_core/xxhash3/derivation'),
        ('use std::marker::Model;', '', '*'),
        ('marker::{Model, PhantomData}', 'marker::{PhantomData}', '*'),
        ('fn fmt<W: fmt::Write>(&self, f: &mut fmt::Formatter<W>)', "fn fmt(&self, f: &mut fmt::Formatter<'_>)", '*'),
        ('pub mod barriers;', 'pub use crate::rattle::barriers;', 'twox_words'),
        ('mod buffers;', 'use crate::buffers;', 'twox_core/xxhash3/streaming'),
        ('pub mod by_stripes; mod saved_text;', '', 'twox_plain'),
        ('mod build_hashers;', '', '*'),
        ('mod saved;', '', '*'),
        ('pub use build_hashers::{RandomState, State};', '', '*'),
        ('pub use saved::FormError;', '', '*'),
        ('#[inline]', '#[inline(always)]', 'twox_core/xxhash3/large/four'),
        ('#[inline]', '#[inline(always)]', 'twox_core/xxhash3/large/lanes4'),
        ('#[inline(never)] fn impl_129_to_240_bytes', '#[inline] fn impl_129_to_240_bytes', 'twox_core/width_64'),
        ('#[inline(never)] fn impl_long', '#[inline(always)] fn impl_long', 'twox_plain/xxhash64/rounds'),
        *(
            (f'#[inline(never)] {head}', f'#[inline(always)] {head}', 'twox_core/xxhash3/*')
            for head in (
                'fn take_stripes<V',
                'fn take_many_stripes<V',
                'pub(super) fn take_many_blocks<V',
                'fn write_through<V',
            )
        ),
        *(
            (begin, f'{begin} where S: FixedBuffer', file)
            for begin, file in (
                ('Result<SecretBuffer<S>, SecretTooShortError<S>>', 'twox_core/xxhash3/streaming/secret_buffer'),
                ("fn secret(&self) -> Secret<'_>", 'twox_core/xxhash3/streaming/secret_buffer'),
                ('pub fn write(&mut self, input: &[u8])', 'twox_core/xxhash3/streaming/raw'),
                ('pub fn write_with(&mut self, v: impl Vector, input: &[u8])', 'twox_core/xxhash3/streaming/raw'),
                ('pub fn write_array<const N: usize>(&mut self, bytes: &[u8; N])', 'twox_core/xxhash3/streaming/raw'),
                ('-> F::Output', 'twox_core/xxhash3/streaming/raw'),
                ('pub fn write(&mut self, input: &[u8])', 'twox_hash/streams'),
                ('pub fn write_array<const N: usize>(&mut self, bytes: &[u8; N])', 'twox_hash/streams'),
            )
        ),
        *(
            (old, old.replace('S: FixedBuffer', 'S'), file)
            for old, file in (
                ('pub struct SecretBuffer<S: FixedBuffer>', 'twox_core/xxhash3/streaming/secret_buffer'),
                ('impl<S: FixedBuffer> SecretBuffer<S>', 'twox_core/xxhash3/streaming/secret_buffer'),
                ('pub struct RawHasherCore<S: FixedBuffer>', 'twox_core/xxhash3/streaming/raw'),
                ('impl<S: FixedBuffer> RawHasherCore<S>', 'twox_core/xxhash3/streaming/raw'),
                ('pub struct RawStream<F: Finalize, S: FixedBuffer>', 'twox_hash/streams'),
                ('impl<F: Finalize, S: FixedBuffer> RawStream<F, S>', 'twox_hash/streams'),
            )
        ),
    )
]
# What the body of a function becomes, or the value of a constant or a type, by the file and the name.
OWN = {
    'twox_words/words': {'u32_at': 'crate::rattle::u32_at(bytes, i)', 'u64_at': 'crate::rattle::u64_at(bytes, i)'},
    'twox_words/words/chunks': {'bp_as_chunks': 'crate::rattle::as_chunks::<T, N>(items)'},
    'twox_words/copies': {'copy_ends': 'crate::rattle::copy_ends::<N>(to, from)'},
    'twox_plain/xxhash32/rounds': {
        'IN_PAIRS': 'crate::kernels::IN_PAIRS',
        'BYTES_FOR_BLOCKS': 'crate::kernels::BYTES_FOR_BLOCKS',
        'write_blocks': 'crate::kernels::write_blocks_32(self, input)',
    },
    'twox_plain/xxhash64/rounds': {'IN_PAIRS': 'crate::kernels::IN_PAIRS'},
    'twox_core/width_64': {
        'oneshot_long': 'crate::kernels::long_64(secret, input)',
        'second_word': 'crate::rattle::second_word(input, from_8, i)',
        'oneshot_long_derived': 'crate::kernels::long_derived_64(seed, input)',
    },
    'twox_core/width_128': {
        'oneshot_long': 'crate::kernels::long_128(secret, input)',
        'oneshot_long_derived': 'crate::kernels::long_derived_128(seed, input)',
    },
    'twox_core/xxhash3/parts': {'expect_middle': 'crate::kernels::expect_middle(input, secret)'},
    'twox_core/xxhash3/large': {'Kernel': 'crate::kernels::Kernel'},
    'twox_core/xxhash3/streaming/core_state': {'write_by_default': 'crate::kernels::write(self, input, secret)'},
    'twox_core/xxhash3/streaming/secret_buffer': {'secret_of': 'crate::buffers::secret_of(bytes)'},
}
# The same for the programs.
PORTS = ('memchr', 'itoa', 'serde_json')
OF_RATTLE = {
    'std::alloc': 'crate::rattle',
    **{f'std::{name}': f'crate::rattle::{name}' for name in ('io', 'env', 'fs', 'rt', 'process')},
}
IN_PROGRAMS = [
    (tokens_of(old), tokens_of(new), files)
    for old, new, files in (
        *((old, new, '*') for old, new in OF_RATTLE.items()),
        *((f'{name}::', f'crate::rattle::{name}::', '*') for name in PORTS),
        ('use std::{fmt, io};', 'use crate::rattle::io; use std::fmt;', 'xxh_io/words'),
        ('use std::{fs, io};', 'use crate::rattle::fs; use crate::rattle::io;', 'xxhsum_fs/calls'),
        (
            'b" 0.1.0 of twox_hash, with the messages of xxhsum 0.8.1 and the options and lines of 0.8.3"',
            'b" 0.1.0 of twox_hash, compiled by rustc from proved source, with the messages of xxhsum 0.8.1 and the '
            'options and lines of 0.8.3"',
            'xxhsum_program/usage',
        ),
        ('write!(words, "{error}")', 'write!(words, "{}", io::Shown(&error))', 'xxh_io/words'),
        ('fn fmt<W: fmt::Write>(&self, f: &mut fmt::Formatter<W>)', "fn fmt(&self, f: &mut fmt::Formatter<'_>)", '*'),
        ('= str::from_utf8', '= std::str::from_utf8', 'xxhsum_fs/system'),
        ('match str::from_utf8', 'match std::str::from_utf8', 'xxhsum_audit/json'),
    )
]
PRELUDE = {'AllocGlobal', 'Clone', 'HostRuntime', 'String', 'Vec', 'prove', 'vec'}
# What may not stay in an erased file.
GONE = {'requires', 'ensures', 'ghost', 'tactic', 'Model', 'Drop'}
# Files of the library that are erased for the programs, or not at all.
NOT_OF_LIBRARY = {'barriers', 'buffers', 'by_stripes', 'saved_text', 'build_hashers', 'saved'}
# The files of the programs' tree that come from no file of the crates.
ROOTS = {
    'mod': ' '.join(f'pub mod {crate};' for crate in ('twox_hash', 'twox_plain', *OF_PROGRAMS)),
    'twox_hash': 'pub use crate::erased::twox_hash::*; pub use super::twox_plain::{xxhash32, xxhash64};',
    'twox_plain': 'pub use crate::erased::twox_plain::*; mod saved_text; pub mod xxhash32; pub mod xxhash64;',
    **{
        f'twox_plain/xxhash{bits}': f'pub use crate::erased::twox_plain::xxhash{bits}::*; mod saved; '
        'pub use saved::FormError;'
        for bits in (32, 64)
    },
}


@dataclass(frozen=True)
class Tree:
    module: str
    crates: tuple
    replacements: list
    gone: set
    # Paths that may not stay: Rust has others of that name, or none.
    never: list
    roots: dict


LIBRARY = Tree(
    'erased',
    CRATES,
    REPLACEMENTS,
    GONE | NOT_OF_LIBRARY - {'barriers', 'buffers'},
    [tokens_of(f'std::{name}') for name in ('alloc', 'boxed', 'simd')],
    {'mod': ' '.join(f'pub mod {crate};' for crate in CRATES)},
)
PROGRAMS = Tree(
    'programs',
    (*CRATES, *OF_PROGRAMS),
    IN_PROGRAMS,
    GONE,
    [tokens_of(name) for name in (*OF_RATTLE, '= str::from_utf8', 'match str::from_utf8')],
    ROOTS,
)


def replacements_at(tokens, at, crate, file, tree):
    """(number of tokens, their replacement) for each replacement allowed at a place."""
    before = tokens[at - 1] if at else ''
    for old, new, files in tree.replacements:
        is_path_within = before == ':' and old[0] in ('std', *PORTS)
        if tokens[at : at + len(old)] == old and not is_path_within and re.fullmatch(files.replace('*', '.*'), file):
            yield len(old), new
    if before != ':' and tokens[at + 1 : at + 3] == [':', ':']:
        if tokens[at] in ('crate', *tree.crates):
            yield 1, ['crate', ':', ':', tree.module, ':', ':', crate if tokens[at] == 'crate' else tokens[at]]


def behind_imports(expected, file):
    """The place after the imports of names of Rattle's prelude, and of vectors, at the beginning of a file."""
    begin, place = tokens_of('use crate::rattle::prelude::'), 0
    if expected[: len(begin)] == begin:
        end = expected.index(';')
        place = end + 1 if {word for word in expected[len(begin) : end] if word not in '{},'} <= PRELUDE else 0
    vectors = tokens_of('use crate::rattle::simd;')
    is_above = file == 'twox_core/xxhash3/large' and expected[place : place + len(vectors)] == vectors
    return place + len(vectors) if is_above else place


def with_own_items(tokens, file):
    """The tokens of a source with the items that the crate has in a form of its own."""
    for name, text in OWN.get(file, {}).items():
        (at,) = (
            i
            for i, word in enumerate(tokens)
            if word in ('fn', 'const', 'type') and tokens[i + 1] == name and tokens[i - 1] != '<'
        )
        if tokens[at] == 'fn':
            while tokens[at] != '(':
                at += 1
            at = behind(tokens, at)
            while tokens[at] != '{':
                at += contract_at(tokens, at) or 1
            begin, end = at, behind(tokens, at) - 1
        else:
            begin = tokens.index('=', at)
            end = tokens.index(';', begin)
        tokens = [*tokens[: begin + 1], *tokens_of(text), *tokens[end:]]
    return tokens


def unexplained(source: str, erased: str, crate: str, file: str, tree: Tree) -> Optional[tuple[str, str]]:
    """The furthest place that nothing explains, as the tokens of both from there on; or None."""
    tokens, expected = [*with_own_items(tokens_of(source), file), *[''] * 8], tokens_of(erased)
    begin = behind_imports(expected, file)
    end, waiting, seen, furthest = len(tokens) - 8, [(0, begin)], set(), (0, 0)
    while waiting:
        at, place = waiting.pop()
        if (at, place) in seen:
            continue
        seen.add((at, place))
        furthest = max(furthest, (place, at))
        if at == end:
            if place == len(expected):
                return None
            continue
        gone = contract_at(tokens, at) or drop_at(tokens, at)
        if gone:
            waiting.append((at + gone, place))
            continue
        stays = tokens[at] not in tree.gone and not any(tokens[at : at + len(path)] == path for path in tree.never)
        if stays and expected[place : place + 1] == [tokens[at]]:
            waiting.append((at + 1, place + 1))
        for count, new in replacements_at(tokens, at, crate, file, tree):
            if expected[place : place + len(new)] == new:
                waiting.append((at + count, place + len(new)))
    return ' '.join(tokens[furthest[1] : furthest[1] + 12]), ' '.join(expected[furthest[0] : furthest[0] + 12])


def is_of(tree, crate, inside):
    """True if a file is written into a tree."""
    if tree is LIBRARY:
        return os.path.basename(inside) not in NOT_OF_LIBRARY
    return crate in OF_PROGRAMS or crate == 'twox_plain' and inside in SAVED


def sources(crates, tree):
    """Each file of the crates of a tree: its crate, its name in the tree, and its path."""
    for crate in tree.crates:
        top = os.path.join(crates, crate, 'src')
        for folder, _, names in os.walk(top):
            for name in sorted(names):
                path = os.path.join(folder, name)
                inside = os.path.relpath(path, top).removesuffix('.rt')
                if is_of(tree, crate, inside):
                    yield crate, crate if inside in ('lib', 'main') else f'{crate}/{inside}', path


def faults(crates: str, folder: str, tree: Tree = LIBRARY) -> tuple[int, list[str]]:
    """The number of files read, and what can't be explained in them."""
    count, found = 0, []
    for crate, file, source in sources(crates, tree):
        path = os.path.join(folder, f'{file}.rs')
        if not os.path.exists(path):
            found.append(f'{file} is missing')
            continue
        count += 1
        fault = unexplained(text_of(source), text_of(path), crate, file, tree)
        if fault:
            found.append(f'{file}: the source has `{fault[0]}`, the erased file `{fault[1]}`')
    for file, expected in tree.roots.items():
        path = os.path.join(folder, f'{file}.rs')
        count += 1
        if not os.path.exists(path) or tokens_of(text_of(path)) != tokens_of(expected):
            found.append(f'{file} is another')
    return count, found
