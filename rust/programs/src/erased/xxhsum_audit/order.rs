// SPDX-License-Identifier: MIT
// crates/xxhsum_audit/src/order.rt without its contracts, written by rust/erase --programs: change that file.

//! The orders of names and of digests by which lines and names are merged.

use crate::rattle::prelude::Vec;
use crate::programs::xxhsum_audit::digest::FileDigest;
use crate::rattle::{AllocError, Global};
use std::cmp::Ordering;
use crate::programs::xxh_io::kind::Kind;

// Returns the position of an algorithm among the algorithms.
fn rank_of(kind: Kind) -> u8 {
    match kind {
        Kind::X32 => 0,
        Kind::X64 => 1,
        Kind::X3_64 => 2,
        Kind::X3_128 => 3,
    }
}

// Returns the name without each `./` at its beginning.
fn normalize_path(name: &[u8]) -> &[u8] {
    let mut rest = name;
    while let Some(behind) = rest.strip_prefix(b"./") {
        rest = behind;
    }
    rest
}

/// Compares two names. Every `./` at the beginning is ignored.
pub fn compare_paths(a: &[u8], b: &[u8]) -> Ordering {
    normalize_path(a).cmp(normalize_path(b))
}

/// True if the path of the name is that of the folder, or below it. All paths are below `.`.
pub fn hides(folder: &[u8], name: &[u8]) -> bool {
    let base = normalize_path(folder);
    base == b".".as_slice() || holds_path(base, normalize_path(name))
}

fn holds_path(base: &[u8], path: &[u8]) -> bool {
    match path.strip_prefix(base) {
        Some(rest) => base.is_empty() || base.ends_with(b"/") || is_tail(rest),
        None => false,
    }
}

fn is_tail(rest: &[u8]) -> bool {
    match rest.first() {
        Some(byte) => *byte == b'/',
        None => true,
    }
}

// Compares two names for sorting: those with one path by all their bytes.
pub(crate) fn rank_names(a: &[u8], b: &[u8]) -> Ordering {
    match compare_paths(a, b) {
        Ordering::Less => Ordering::Less,
        Ordering::Equal => a.cmp(b),
        Ordering::Greater => Ordering::Greater,
    }
}

/// Compares two digests, first by their algorithms.
pub fn compare_digests(a: FileDigest<'_>, b: FileDigest<'_>) -> Ordering {
    match rank_of(a.kind).cmp(&rank_of(b.kind)) {
        Ordering::Less => Ordering::Less,
        Ordering::Equal => a.value.cmp(&b.value),
        Ordering::Greater => Ordering::Greater,
    }
}

// Compares two digests for sorting: those of one algorithm and value by their names.
pub(crate) fn rank_digests(a: FileDigest<'_>, b: FileDigest<'_>) -> Ordering {
    match compare_digests(a, b) {
        Ordering::Less => Ordering::Less,
        Ordering::Equal => rank_names(a.name, b.name),
        Ordering::Greater => Ordering::Greater,
    }
}

/// Sorts names.
pub fn put_names_in_order(names: &mut [&[u8]]) {
    names.sort_unstable_by(|a, b| rank_names(a, b));
}

/// Sorts entries of lines by their names.
pub fn put_lines_in_order(lines: &mut [FileDigest<'_>]) {
    lines.sort_unstable_by(|a, b| rank_names(a.name, b.name));
}

// Sorts digests.
pub(crate) fn put_digests_in_order(digests: &mut [FileDigest<'_>]) {
    digests.sort_unstable_by(|a, b| rank_digests(*a, *b));
}

/// Returns the names of these, in order. Returns `AllocError` if out of memory.
pub fn names_of<'n>(alloc: Global, digests: &[FileDigest<'n>]) -> Result<Vec<&'n [u8]>, AllocError> {
    let mut names = Vec::new(alloc);
    for one in digests {
        names.push(one.name)?;
    }
    Ok(names)
}

/// Returns the first name with the path of the next one, if there is one.
pub fn find_duplicate<'n>(names: &[&'n [u8]]) -> Option<&'n [u8]> {
    for at in 0..names.len() {
        if shares_path(names[at], &names[at + 1..]) {
            return Some(names[at]);
        }
    }
    None
}

// True if the first of the others has the path of this one.
fn shares_path(name: &[u8], behind: &[&[u8]]) -> bool {
    match behind.first() {
        Some(next) => compare_paths(name, next) == Ordering::Equal,
        None => false,
    }
}
