"""Sources that a careless eraser would turn into other programs, and one for each form that is kept or refused, by
planted_sources.txt; and changes of the crates that make an edit apply otherwise."""
import re
from typing import NamedTuple, Optional

from checks.lib.tools import text_of

LIBRARY, PROGRAM = 'twox_words/src/case.rt', 'xxh_io/src/case.rt'


class Planted(NamedTuple):
    """A source: the file of a crate that it is read as, what `case()` returns in Rattle (None: the toolchain refuses
    it, or it has no `case`), and the eraser's reason to refuse it ('': it is erased, and `case()` returns the same in
    Rust)."""

    file: str
    name: str
    value: Optional[int]
    reason: str
    source: str


HEAD = re.compile(r'(.*?): (none|\d+)(?:, refused: (.*))?')


def planted_sources():
    """A line `= FILE` of planted_sources.txt begins the sources of a file, and `== NAME: VALUE, refused: REASON` each
    of these; `> ` begins the body of `case`. A character that editors change is there as ⟨U+D⟩."""
    text = re.sub('^# .*\n', '', text_of('rust/checks/planted_sources.txt'), flags=re.M)
    for part in re.split('^= ', text, flags=re.M)[1:]:
        file, *entries = part.removesuffix('\n').split('\n== ')
        for head, source in (entry.split('\n', 1) for entry in entries):
            name, value, reason = HEAD.fullmatch(head).groups()
            source = re.sub(r'⟨U\+(\w+)⟩', lambda found: chr(int(found[1], 16)), source)
            if source.startswith('> '):
                source = f'pub fn case() -> usize {{\n{source[2:]}\n}}'
            yield Planted(file, name, None if value == 'none' else int(value), reason or '', source)


PLANTED = tuple(planted_sources())


class Change(NamedTuple):
    """A change of a crate that the eraser must refuse for this reason."""

    file: str
    old: str
    new: str
    reason: str


COUNTED, OTHER, ITEM = ' times, not ', ' is for other code of ', ' items named '
# Changes that make an edit apply another number of times, or to other code, or that take away an item which the crate
# has in a form of its own.
CHANGED_CRATES = (
    Change('twox_words/src/words.rt', 'pub fn u32_at(', 'pub fn u32_of(', ITEM),
    Change('twox_words/src/copies.rt', 'fn copy_chunk<', 'fn copy_ends<', ITEM),
    Change(
        'twox_core/src/xxhash3/streaming/stream_counts.rt',
        '    #[inline(never)]\n    fn write_through',
        '    fn write_through',
        'has no attribute',
    ),
    Change('twox_plain/src/xxhash64/rounds.rt', 'const IN_PAIRS: bool', 'const PAIRS: bool', ITEM),
)
# The same in the programs, or a refusal.
CHANGED_PROGRAMS = (
    Change('xxhsum_program/src/usage.rt', ' 0.1.0 of twox_hash,', ' 0.1.1 of twox_hash,', COUNTED),
    # A line before the one that an edit replaces, in the same function.
    Change(
        'xxh_io/src/words.rt',
        '    let _ = write!(words, "{error}");',
        '    let error = 1;\n    let _ = write!(words, "{error}");',
        OTHER,
    ),
    Change(
        'twox_plain/src/xxhash64/saved.rt',
        'usize_member(value, "buffer_usage")?',
        'u64_member(value, "buffer_usage")? as usize',
        'the cast `? as usize`',
    ),
)
