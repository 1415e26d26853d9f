// SPDX-License-Identifier: MIT
// crates/xxhsum_audit/src/moves.rt without its contracts, written by rust/erase --programs: change that file.

//! The results of an audit, from merged lines and names. The names have their digests.

use crate::rattle::prelude::Vec;
use crate::programs::xxhsum_audit::digest::FileDigest;
use crate::programs::xxhsum_audit::order::{compare_digests, put_digests_in_order};
use crate::programs::xxhsum_audit::side::{Side, first_by_digest};
use crate::programs::xxhsum_audit::verdict::{Verdict, put_verdicts_in_order};
use crate::rattle::{AllocError, Global};
use std::cmp::Ordering;

/// Lines and names, merged by path.
pub struct Compared<'n> {
    /// The results of the names that are in both lists.
    pub matched: Vec<Verdict<'n>>,
    /// The lines whose names were not given.
    pub removed: Vec<FileDigest<'n>>,
    /// The names that no line has, with their digests.
    pub added: Vec<FileDigest<'n>>,
    /// The names whose files or directories can't be read.
    pub unread: Vec<&'n [u8]>,
}

/// Returns the results of all lines and names: first the names in both lists, then the others, sorted by name. Returns
/// `AllocError` if out of memory.
pub fn verdicts<'n>(
    alloc: Global,
    matched: Vec<Verdict<'n>>,
    mut removed: Vec<FileDigest<'n>>,
    mut added: Vec<FileDigest<'n>>,
) -> Result<Vec<Verdict<'n>>, AllocError> {
    let mut kept = same_in(alloc, &matched)?;
    let mut rest = Vec::new(alloc);
    put_digests_in_order(&mut kept);
    put_digests_in_order(&mut removed);
    put_digests_in_order(&mut added);
    add_moves(&removed, &added, &kept, &mut rest)?;
    put_verdicts_in_order(&mut rest);
    let mut found = matched;
    found.extend_from_slice(&rest)?;
    Ok(found)
}

// Returns the unchanged files.
fn same_in<'n>(alloc: Global, matched: &[Verdict<'n>]) -> Result<Vec<FileDigest<'n>>, AllocError> {
    let mut kept = Vec::new(alloc);
    for verdict in matched {
        if let Verdict::Same { name, .. } = *verdict {
            kept.push(name)?;
        }
    }
    Ok(kept)
}

// Appends the results of the lines whose names are gone and of the new names.
fn add_moves<'n>(
    removed: &[FileDigest<'n>],
    added: &[FileDigest<'n>],
    kept: &[FileDigest<'n>],
    found: &mut Vec<Verdict<'n>>,
) -> Result<(), AllocError> {
    let mut removed_left = removed;
    let mut added_left = added;
    while let Some(side) = first_by_digest(removed_left, added_left) {
        found.push(verdict_of(kept, side))?;
        removed_left = &removed_left[side.lines()..];
        added_left = &added_left[side.names()..];
    }
    Ok(())
}

// Returns the result of a line whose name is gone, of a new name, or of both.
fn verdict_of<'n>(
    kept: &[FileDigest<'n>],
    side: Side<FileDigest<'n>, FileDigest<'n>>,
) -> Verdict<'n> {
    match side {
        Side::Line(line) => Verdict::Missing { line },
        Side::Both(line, name) => Verdict::Moved { line, name },
        Side::Name(name) => match original_in(kept, name) {
            Some(original) => Verdict::Copied { original, name },
            None => Verdict::New { name },
        },
    }
}

// Returns the first unchanged file with the digest of the name.
fn original_in<'n>(kept: &[FileDigest<'n>], name: FileDigest<'_>) -> Option<FileDigest<'n>> {
    let place = kept.partition_point(|one| compare_digests(*one, name) == Ordering::Less);
    let first = *kept.get(place)?;
    if compare_digests(first, name) == Ordering::Equal {
        Some(first)
    } else {
        None
    }
}
