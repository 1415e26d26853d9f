// SPDX-License-Identifier: MIT
// crates/xxhsum_audit/src/side.rt without its contracts, written by rust/erase --programs: change that file.

//! Two sorted lists, merged.

use crate::programs::xxhsum_audit::digest::FileDigest;
use crate::programs::xxhsum_audit::order::{compare_digests, compare_paths};
use std::cmp::Ordering;

/// The first element of two sorted lists: of only one of them, or of both.
#[derive(Clone, Copy, Debug, PartialEq, Eq)]
pub enum Side<L, N> {
    /// A line, whose name was not given, or whose digest no name has.
    Line(L),
    /// A name that no line has, or whose digest none has.
    Name(N),
    /// A line and a name that are alike.
    Both(L, N),
}

impl<L, N> Side<L, N> {
    /// Returns the number of its lines: one or none.
    pub fn lines(&self) -> usize {
        match self {
            Side::Line(_) | Side::Both(_, _) => 1,
            Side::Name(_) => 0,
        }
    }

    /// Returns the number of its names: one or none.
    pub fn names(&self) -> usize {
        match self {
            Side::Name(_) | Side::Both(_, _) => 1,
            Side::Line(_) => 0,
        }
    }
}

/// Returns the first of sorted lines and names.
pub fn first_by_path<'n>(
    lines: &[FileDigest<'n>],
    names: &[&'n [u8]],
) -> Option<Side<FileDigest<'n>, &'n [u8]>> {
    match (lines.split_first(), names.split_first()) {
        (None, None) => None,
        (Some((line, _)), None) => Some(Side::Line(*line)),
        (None, Some((name, _))) => Some(Side::Name(*name)),
        (Some((line, _)), Some((name, _))) => match compare_paths(line.name, name) {
            Ordering::Less => Some(Side::Line(*line)),
            Ordering::Equal => Some(Side::Both(*line, *name)),
            Ordering::Greater => Some(Side::Name(*name)),
        },
    }
}

// Returns the first of lines whose names are gone and new names, both sorted by digest.
pub(crate) fn first_by_digest<'n>(
    removed: &[FileDigest<'n>],
    added: &[FileDigest<'n>],
) -> Option<Side<FileDigest<'n>, FileDigest<'n>>> {
    match (removed.split_first(), added.split_first()) {
        (None, None) => None,
        (Some((line, _)), None) => Some(Side::Line(*line)),
        (None, Some((name, _))) => Some(Side::Name(*name)),
        (Some((line, _)), Some((name, _))) => match compare_digests(*line, *name) {
            Ordering::Less => Some(Side::Line(*line)),
            Ordering::Equal => Some(Side::Both(*line, *name)),
            Ordering::Greater => Some(Side::Name(*name)),
        },
    }
}
