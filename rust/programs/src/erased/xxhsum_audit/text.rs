// SPDX-License-Identifier: MIT
// crates/xxhsum_audit/src/text.rt without its contracts, written by rust/erase --programs: change that file.

//! An audit as text.

use crate::rattle::prelude::Vec;
use crate::programs::xxhsum_audit::verdict::Verdict;
use crate::rattle::{AllocError, Global};
use crate::programs::xxhsum_line::escapes::{escape, needs_escape, put_escaped};

/// Returns the result of a line, of a name or of both: a line, the only one whatever the names, or a record that ends
/// with a NUL. The names of a line are escaped as in lists, and a space after a colon in its first name is escaped by a
/// backslash, so that two results have two lines. In a record the names are unchanged, and the second name is a record
/// of its own. Returns `AllocError` if out of memory.
pub fn verdict_text(
    alloc: Global,
    verdict: Verdict<'_>,
    ends_in_nul: bool,
) -> Result<Vec<u8>, AllocError> {
    text_of(
        alloc,
        verdict.told().name,
        verdict.words(),
        verdict.other(),
        ends_in_nul,
    )
}

/// Returns the line or the record of a name whose file or directory can't be read. Returns `AllocError` if out of
/// memory.
pub fn unreadable_text(alloc: Global, name: &[u8], ends_in_nul: bool) -> Result<Vec<u8>, AllocError> {
    text_of(alloc, name, b"unreadable", None, ends_in_nul)
}

fn text_of(
    alloc: Global,
    name: &[u8],
    words: &[u8],
    other: Option<&[u8]>,
    ends_in_nul: bool,
) -> Result<Vec<u8>, AllocError> {
    if ends_in_nul {
        nul_text(alloc, name, words, other)
    } else {
        line_text(alloc, name, words, other)
    }
}

// Returns a record that ends with a NUL.
fn nul_text(
    alloc: Global,
    name: &[u8],
    words: &[u8],
    other: Option<&[u8]>,
) -> Result<Vec<u8>, AllocError> {
    let mut text = Vec::new(alloc);
    text.extend_from_slice(name)?;
    text.extend_from_slice(b": ")?;
    text.extend_from_slice(words)?;
    text.extend_from_slice(b"\0")?;
    if let Some(other) = other {
        text.extend_from_slice(other)?;
        text.extend_from_slice(b"\0")?;
    }
    Ok(text)
}

// Returns a line.
fn line_text(
    alloc: Global,
    name: &[u8],
    words: &[u8],
    other: Option<&[u8]>,
) -> Result<Vec<u8>, AllocError> {
    let mut line = Vec::new(alloc);
    if is_marked(name, other) {
        line.extend_from_slice(b"\\")?;
    }
    put_escaped_behind(&mut line, name)?;
    line.extend_from_slice(b": ")?;
    line.extend_from_slice(words)?;
    put_other(&mut line, other)?;
    line.extend_from_slice(b"\n")?;
    Ok(line)
}

// True if a byte of the names is escaped.
fn is_marked(name: &[u8], other: Option<&[u8]>) -> bool {
    needs_escape(name) || has_separator(name) || other_needs_escape(other)
}

fn other_needs_escape(other: Option<&[u8]>) -> bool {
    match other {
        Some(other) => needs_escape(other),
        None => false,
    }
}

// True if the name contains a colon and a space.
fn has_separator(name: &[u8]) -> bool {
    let mut before = 0;
    for byte in name {
        if is_separator(before, *byte) {
            return true;
        }
        before = *byte;
    }
    false
}

// True if the byte is a space and the byte before it a colon.
fn is_separator(before: u8, byte: u8) -> bool {
    before == b':' && byte == b' '
}

// Appends a first name, escaped.
fn put_escaped_behind(line: &mut Vec<u8>, name: &[u8]) -> Result<(), AllocError> {
    let mut before = 0;
    for byte in name {
        line.extend_from_slice(escape_behind(before, byte))?;
        before = *byte;
    }
    Ok(())
}

// Returns a byte of a first name, escaped if it needs to be.
fn escape_behind(before: u8, byte: &u8) -> &[u8] {
    if is_separator(before, *byte) {
        b"\\ "
    } else {
        escape(byte)
    }
}

// Appends a second name, escaped, after a space.
fn put_other(line: &mut Vec<u8>, other: Option<&[u8]>) -> Result<(), AllocError> {
    if let Some(other) = other {
        line.extend_from_slice(b" ")?;
        put_escaped(line, other)?;
    }
    Ok(())
}
