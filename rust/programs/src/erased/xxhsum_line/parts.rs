// SPDX-License-Identifier: MIT
// crates/xxhsum_line/src/parts.rt without its contracts, written by rust/erase --programs: change that file.

//! The parts of a line.

use crate::rattle::memchr::{memchr, memrchr};

/// The parts of a line.
#[derive(Clone, Copy, Debug, PartialEq, Eq)]
pub enum Parts<'a> {
    /// Digits, a space, any byte except `(`, and the name of a file.
    Plain {
        digits: &'a [u8],
        name: &'a [u8],
    },
    /// A tag, the name of a file in parentheses, an equals sign and digits.
    Tagged {
        tag: &'a [u8],
        name: &'a [u8],
        digits: &'a [u8],
    },
}

/// Returns the line up to its first NUL, or all of it if it has none.
pub fn up_to_nul(line: &[u8]) -> &[u8] {
    match split_at_first(0, line) {
        Some((front, _)) => front,
        None => line,
    }
}

/// Returns the line without the carriage return at its end, if it has one.
pub fn without_return(line: &[u8]) -> &[u8] {
    match line {
        [front @ .., b'\r'] => front,
        _ => line,
    }
}

/// Splits a line, without its newline, into its parts. `None` if it has neither form.
pub fn parts_of(line: &[u8]) -> Option<Parts<'_>> {
    let (first, rest) = split_at_first(b' ', line)?;
    match rest {
        [] => None,
        [b'(', inside @ ..] => tagged_parts(first, inside),
        [_, name @ ..] => Some(Parts::Plain {
            digits: first,
            name,
        }),
    }
}

// Returns the parts of a tagged line with this tag, a space, `(` and then these bytes.
fn tagged_parts<'a>(tag: &'a [u8], inside: &'a [u8]) -> Option<Parts<'a>> {
    let (before, digits) = split_at_last_space(inside)?;
    let name = before.strip_suffix(b") =")?;
    Some(Parts::Tagged { tag, name, digits })
}

/// Splits bytes at the first byte of this value. `None` if there is none.
pub fn split_at_first(byte: u8, bytes: &[u8]) -> Option<(&[u8], &[u8])> {
    let place = memchr(byte, bytes)?;
    Some((&bytes[..place], &bytes[place + 1..]))
}

// Splits bytes at the last space.
fn split_at_last_space(line: &[u8]) -> Option<(&[u8], &[u8])> {
    let place = memrchr(b' ', line)?;
    Some((&line[..place], &line[place + 1..]))
}
