// SPDX-License-Identifier: MIT
// crates/xxhsum_line/src/laws.rt without its contracts, written by rust/erase --programs: change that file.

//! Properties that users rely on, as functions with contracts.

use crate::programs::xxhsum_line::entry::{Entry, Meaning, meaning_of};
use crate::programs::xxhsum_line::printed::{Shape, digest_line};
use crate::rattle::{AllocError, Global};
use crate::programs::xxh_io::kind::Kind;

/// Lemma (no code), the laws of lines: what is printed is accepted; a printed line is one line and no comment; a text
/// that is reported as one line is one, whatever names it has; an escape is undone; a line has at most one choice of
/// parts, and at most one meaning; two digests have two texts.
pub fn laws_of_lines() {}

/// True if the printed line, without its newline, is parsed as the same algorithm, digest and name. It is, for each
/// name with no NUL and each digest of the algorithm. Returns `AllocError` if out of memory.
pub fn is_read_back(
    alloc: Global,
    kind: Kind,
    shape: Shape,
    value: u128,
    name: &[u8],
) -> Result<bool, AllocError> {
    let line = digest_line(alloc, kind, shape, value, name)?;
    let bytes = line.as_slice();
    match bytes.strip_suffix(b"\n") {
        Some(text) => is_read_as(alloc, text, shape.is_little, kind, value, name),
        None => Ok(false),
    }
}

// True if the line is parsed as this algorithm, digest and name.
fn is_read_as(
    alloc: Global,
    text: &[u8],
    is_little: bool,
    kind: Kind,
    value: u128,
    name: &[u8],
) -> Result<bool, AllocError> {
    Ok(match meaning_of(alloc, text, is_little)? {
        Meaning::Entry(entry) => is_same(&entry, kind, value, name),
        Meaning::Comment | Meaning::Malformed => false,
    })
}

fn is_same(entry: &Entry, kind: Kind, value: u128, name: &[u8]) -> bool {
    entry.kind == kind && entry.value == value && entry.name.as_slice() == name
}
