"""The forms that the eraser supports. Any other form in a source is refused, with its line. What a call means is not
tested here: the toolchain names each function that is called (callees.py)."""
import os
from collections import Counter, namedtuple
from typing import TYPE_CHECKING, NoReturn

from rust.eraser.tokens import CLOSE, OPEN, Refused, Token, closing

if TYPE_CHECKING:
    from rust.eraser.items import Items

# Rust's keywords, those that are written as names included. The library's sources have some of them.
KEYWORDS = set(
    """as async await become box break const continue crate do dyn else enum extern false final fn for gen if
    impl in let loop macro macro_rules match mod move mut override priv pub ref return self Self static struct super
    trait true try type typeof union unsafe unsized use virtual where while yield""".split()
)
ALLOWED_KEYWORDS = set(
    """as break const continue crate else enum false fn for if impl in let match mod mut pub return self Self
struct super trait true type unsafe use where while""".split()
)
# The functions of Rust's prelude that return a layout. `size_of` has a rule of its own.
LAYOUTS = {'size_of_val', 'align_of', 'align_of_val'}
MACROS = {'prove'}
STD = {'alloc', 'boxed', 'error', 'fmt', 'hash', 'marker', 'simd', 'slice'}
# What the programs have in addition.
PROGRAM_KEYWORDS = {'loop'}
PROGRAM_MACROS = {'json', 'matches', 'vec', 'write'}
PROGRAM_STD = {'cmp', 'env', 'fs', 'io', 'process', 'rt'}
# Methods that a trait adds to a type of the standard library. None may be a method that the type has, now or later.
ADDED_METHODS = """
    first_u32 last_u32 first_u64 last_u64 upper_half lower_half into_u32 into_u64 into_u128 as_ref as_mut
""".split()
# Methods that a type may have twice: its own and those of Rust's trait `Hasher`, and of `Debug` and `Display`.
TWICE = {'write', 'finish', 'fmt'}
# The types whose size is tested, with `repr(C)` and fields with the same layout in both languages.
SIZES = {
    ('twox_plain/src/xxhash32.rt', 'StateInMemory'),
    ('twox_plain/src/xxhash64.rt', 'StateInMemory'),
    ('twox_core/src/xxhash3/streaming/core_state.rt', 'CoreState'),
}
# Casts to a type whose width is the machine's, or from one: their places, their number, and why no value is lost on 32
# bits.
CASTS = {
    ('twox_words/src/words/widening.rt', 'self as u64'): (1, 'a usize has at most 64 bits'),
    ('twox_words/src/words/halves.rt', ') as u64'): (2, 'the halves of a u128'),
    ('twox_plain/src/xxhash32/state.rt', ') as usize'): (1, 'less than 2^32, from a u32'),
    ('twox_plain/src/xxhash32/state.rt', 'total_high as u64'): (1, 'a u32'),
    ('twox_plain/src/xxhash32/state.rt', 'total_low as u64'): (1, 'a u32'),
    ('twox_plain/src/xxhash64/state.rt', ') as usize'): (1, 'less than 2^32, from a u32'),
    ('twox_core/src/xxhash3/streaming/stream_counts.rt', 'total_bytes as usize'): (1, 'at most 240, as was tested'),
    **{
        ('twox_plain/src/xxhash32/saved.rt', f'{name} as u64'): (1, 'a u32')
        for name in ('v1', 'v2', 'v3', 'v4', 'seed')
    },
    ('xxh_program/src/program/memory.rt', ') as u64'): (1, 'a length has at most 64 bits'),
    ('xxh_program/src/program/blocks.rt', ') as u64'): (2, 'a length has at most 64 bits'),
    ('xxh_program/src/program/blocks.rt', 'room as usize'): (1, 'at most the length of a slice, as was tested'),
    ('xxhsum_program/src/progress.rt', 'count as u64'): (1, 'a usize has at most 64 bits'),
}
UNSAFE = {'twox_words/src/words/chunks.rt': 1}

Forms = namedtuple('Forms', 'keywords macros std')
LIBRARY_FORMS = Forms(ALLOWED_KEYWORDS, MACROS, STD)
PROGRAM_FORMS = Forms(ALLOWED_KEYWORDS | PROGRAM_KEYWORDS, MACROS | PROGRAM_MACROS, STD | PROGRAM_STD)


def refuse(token: Token, why: str) -> NoReturn:
    raise Refused(f'line {token.line}: {why}')


def is_of_programs(file):
    return file.startswith('xxh') or os.path.basename(file) in ('saved_text.rt', 'saved.rt')


def texts_of(code):
    return [token.text for token in code]


def check_forms(tokens: list[Token], file: str, items: 'Items') -> None:
    """Refuses forms without a rule, in a file without contracts. `items` are those of all sources."""
    code = [token for token in tokens if not token.is_blank()]
    known = PROGRAM_FORMS if is_of_programs(file) else LIBRARY_FORMS
    opened = []
    for i, token in enumerate(code):
        if token.kind == 'word':
            check_word(token, texts_of(code[max(i - 6, 0) : i]), texts_of(code[i + 1 : i + 5]), file, known)
        elif token.kind == 'mark' and token.text == '.' and code[i + 1].text == '.' and code[i - 1].text != '.':
            check_range(code, i, opened[-1] if opened else 0)
        elif token.kind == 'mark' and token.text in OPEN:
            opened.append(i)
        elif token.kind == 'mark' and token.text in CLOSE:
            opened.pop()
    check_std(code, known.std)
    check_casts(code, file)
    items.check(file, code)
    expected = UNSAFE.get(file, 0)
    found = texts_of(code).count('unsafe')
    if found != expected:
        raise Refused(f'{found} times `unsafe`, not {expected}')


def check_word(token, before, after, file, known):
    """`before` and `after` are the six tokens before a word, and the four after it."""
    word, last, path = token.text, before[-1] if before else '', after[:2] == [':', ':']
    if word in KEYWORDS - known.keywords or word in LAYOUTS:
        refuse(token, f'`{word}`')
    if after[:1] == ['!'] and after[1] in OPEN and word not in known.macros | {'if', 'while', 'return'}:
        refuse(token, f'the macro `{word}!`')
    if word == 'prove' and before != ['const', '_', ':', '(', ')', '=']:
        refuse(token, 'a `prove!` that is no constant')
    if word in ('core', 'alloc', 'erased', 'rattle') and (last in ('mod', 'as') or path and last != ':'):
        refuse(token, f'`{word}` as the name of a module')
    if word == 'clone' and (last, *after[:3]) not in (('.', '(', ')', '?'), ('fn', '(', '&', 'self')):
        refuse(token, 'a `clone` whose answer is not tested for memory at once')
    if word in ('Clone', 'Drop') and path:
        refuse(token, f'a function of `{word}` by its path')
    if word == 'size_of' and (after[:3] != [':', ':', '<'] or (file, after[3]) not in SIZES):
        refuse(token, f'`size_of` of `{after[-1]}`, which is not in the list')


def check_casts(code, file):
    """Refuses a cast of the machine's width that isn't in the list, and one too many of those that are."""
    count = Counter()
    for before, token, after in zip(code, code[1:], code[2:]):
        if token.text == 'as' and token.kind == 'word' and after.text in ('usize', 'u64', 'isize', 'i64'):
            text = f'{before.text} as {after.text}'
            count[text] += 1
            if count[text] > CASTS.get((file, text), (0, ''))[0]:
                refuse(token, f'the cast `{text}`')


def check_std(code, known):
    for i, token in enumerate(code):
        if token.text != 'std' or token.kind != 'word':
            continue
        if code[i - 1].text == ':' or texts_of(code[i + 1 : i + 3]) != [':', ':']:
            refuse(token, '`std` that begins no path')
        names = code[i + 3 : closing(code, i + 3)] if code[i + 3].text == '{' else code[i + 3 : i + 4]
        for name in names:
            if name.kind == 'word' and name.text not in known:
                refuse(name, f'`std::{name.text}`')


def ends_value(token):
    return (
        token.kind in ('string', 'char')
        or token.text in (')', ']')
        or (token.kind == 'word' and token.text not in KEYWORDS - {'self', 'true', 'false'})
    )


def begins_value(token):
    return (
        token.kind in ('string', 'char')
        or token.text in ('(', '[', '*', '-', '&')
        or (token.kind == 'word' and token.text not in KEYWORDS - {'self', 'true', 'false', 'crate', 'super'})
    )


def check_range(code, i, opener):
    """Refuses `..` except with two ends, in an index, as the rest of a pattern, and before the rest of a struct."""
    end = i + 2 + (code[i + 2].text == '=')
    has_ends = ends_value(code[i - 1]) and begins_value(code[end])
    is_index = code[opener].text == '[' and ends_value(code[opener - 1])
    is_rest = code[i - 1].text in (',', '@', *OPEN) and code[end].text in (',', *CLOSE)
    is_update = (
        code[opener].text == '{' and code[i - 1].text == ',' and '[' not in texts_of(code[i : closing(code, opener)])
    )
    if not (has_ends or is_index or is_rest or is_update):
        refuse(code[i], 'a range without an end')
