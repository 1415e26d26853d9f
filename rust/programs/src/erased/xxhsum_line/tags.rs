// SPDX-License-Identifier: MIT
// crates/xxhsum_line/src/tags.rt without its contracts, written by rust/erase --programs: change that file.

//! The tags of lines and their algorithms.

use crate::programs::xxh_io::kind::Kind;

/// Returns the algorithm of a plain line: XXH3 64-bit if its digits have the prefix, and otherwise by their number.
/// `None` for any other number of digits.
pub fn kind_of_digits(digits: &[u8]) -> Option<Kind> {
    if digits.starts_with(b"XXH3_") {
        Some(Kind::X3_64)
    } else {
        kind_of_count(digits.len())
    }
}

/// Returns the digits without their prefix, which those of XXH3 64-bit may have.
pub fn without_prefix(kind: Kind, digits: &[u8]) -> &[u8] {
    match kind {
        Kind::X3_64 if digits.starts_with(b"XXH3_") => &digits[5..],
        _ => digits,
    }
}

// Returns the algorithm of digits without a prefix, by their number.
fn kind_of_count(count: usize) -> Option<Kind> {
    match count {
        8 => Some(Kind::X32),
        16 => Some(Kind::X64),
        32 => Some(Kind::X3_128),
        _ => None,
    }
}

/// Returns the tag of an algorithm.
pub fn tag_of(kind: Kind) -> &'static [u8] {
    match kind {
        Kind::X32 => b"XXH32",
        Kind::X64 => b"XXH64",
        Kind::X3_64 => b"XXH3",
        Kind::X3_128 => b"XXH128",
    }
}

/// Returns the algorithm of a line with this tag: the one whose tag it begins with, and XXH64 if there is none.
pub fn kind_of_tag(tag: &[u8]) -> Kind {
    if tag.starts_with(b"XXH32") {
        Kind::X32
    } else if tag.starts_with(b"XXH64") {
        Kind::X64
    } else if tag.starts_with(b"XXH128") {
        Kind::X3_128
    } else if tag.starts_with(b"XXH3") {
        Kind::X3_64
    } else {
        Kind::X64
    }
}

// The depth of the recursion is the length of the tag, at most 32,767 in lines of lists.
/// True if the digits of a line with this tag are little-endian: the tag contains `_LE`.
pub fn is_little_tag(tag: &[u8]) -> bool {
    match tag {
        [] => false,
        [_, rest @ ..] => tag.starts_with(b"_LE") || is_little_tag(rest),
    }
}
