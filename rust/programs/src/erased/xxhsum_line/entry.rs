// SPDX-License-Identifier: MIT
// crates/xxhsum_line/src/entry.rt without its contracts, written by rust/erase --programs: change that file.

//! The meaning of a line.

use crate::rattle::prelude::Vec;
use crate::programs::xxhsum_line::digits::value_shown;
use crate::programs::xxhsum_line::escapes::{body_of, is_escaped, name_meant};
use crate::programs::xxhsum_line::parts::{Parts, parts_of, up_to_nul, without_return};
use crate::programs::xxhsum_line::tags::{is_little_tag, kind_of_digits, kind_of_tag, without_prefix};
use crate::rattle::{AllocError, Global};
use crate::programs::xxh_io::kind::Kind;

/// The file of this name has this digest by this algorithm.
#[derive(Debug, PartialEq, Eq)]
pub struct Entry {
    /// The algorithm.
    pub kind: Kind,
    /// The digest, of no more bits than the algorithm has.
    pub value: u128,
    /// The name of the file, in bytes.
    pub name: Vec<u8>,
}

/// The meaning of a line.
#[derive(Debug, PartialEq, Eq)]
pub enum Meaning {
    /// It has a file's digest.
    Entry(Entry),
    /// It begins with `#`.
    Comment,
    /// It is neither of these.
    Malformed,
}

/// Parses a line, without its newline. A line that begins with `#` is a comment. Any other loses a carriage return at
/// its end, as lists written on Windows have it, and everything from its first NUL on. The digits of a plain line are
/// little-endian if `is_little`, those of a tagged line if its tag has `_LE`. A line is malformed if it has neither
/// form, if its digits are too few or too many for its algorithm or one is no digit, or if it is escaped and a
/// backslash in its name begins no escape. Returns `AllocError` if out of memory.
pub fn meaning_of(alloc: Global, line: &[u8], is_little: bool) -> Result<Meaning, AllocError> {
    if is_comment(line) {
        return Ok(Meaning::Comment);
    }
    let text = up_to_nul(without_return(line));
    let Some(shown) = shown_in(body_of(text), is_little) else {
        return Ok(Meaning::Malformed);
    };
    let Some(name) = name_meant(alloc, shown.name, is_escaped(text))? else {
        return Ok(Meaning::Malformed);
    };
    Ok(Meaning::Entry(Entry {
        kind: shown.kind,
        value: shown.value,
        name,
    }))
}

/// True if a line is a comment.
pub fn is_comment(line: &[u8]) -> bool {
    matches!(line, [b'#', ..])
}

// An entry whose name isn't unescaped yet.
#[derive(Clone, Copy)]
struct Shown<'a> {
    kind: Kind,
    value: u128,
    name: &'a [u8],
}

// Parses a line of either form.
fn shown_in(text: &[u8], is_little: bool) -> Option<Shown<'_>> {
    match parts_of(text)? {
        Parts::Plain { digits, name } => {
            let kind = kind_of_digits(digits)?;
            let value = value_meant(kind, digits, is_little)?;
            Some(Shown { kind, value, name })
        }
        Parts::Tagged { tag, name, digits } => {
            let kind = kind_of_tag(tag);
            let value = value_meant(kind, digits, is_little_tag(tag))?;
            Some(Shown { kind, value, name })
        }
    }
}

// Returns the digest of digits of this algorithm, with or without their prefix.
fn value_meant(kind: Kind, digits: &[u8], is_little: bool) -> Option<u128> {
    value_shown(kind, without_prefix(kind, digits), is_little)
}
