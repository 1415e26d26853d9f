// SPDX-License-Identifier: MIT
// crates/xxhsum_app/src/digests.rt without its contracts, written by rust/erase --programs: change that file.

//! Hashes names and merges them with the lines of a list.

use crate::rattle::prelude::Vec;
use crate::rattle::AllocError;
use crate::programs::xxh_io::heap::buffer;
use crate::programs::xxh_io::kind::Kind;
use crate::programs::xxh_io::streams::Sink;
use crate::programs::xxhsum_audit::digest::FileDigest;
use crate::programs::xxhsum_audit::moves::Compared;
use crate::programs::xxhsum_audit::order::hides;
use crate::programs::xxhsum_audit::side::{Side, first_by_path};
use crate::programs::xxhsum_audit::verdict::Verdict;
use crate::programs::xxhsum_fs::store::Store;
use crate::programs::xxhsum_program::context::Context;
use crate::programs::xxhsum_program::hash::eprint_outcome;
use crate::programs::xxhsum_program::outcome::{OFFERED, Outcome, outcome_of};
use crate::programs::xxhsum_program::terminal::TimedSink;

// Hashes names and merges them with lines, both in order. A name with a line is hashed by the line's algorithm, other
// names by `kind`. A name without a digest is reported, and its line is left out, as are lines of names that are in
// `lost` or below them.
#[inline(never)]
pub(crate) fn digests_of<'n, S: Store, T: TimedSink, E: Sink>(
    context: &Context<'_, S, T>,
    kind: Kind,
    lost: &[&'n [u8]],
    lines: &[FileDigest<'n>],
    names: &[&'n [u8]],
    err: &mut E,
) -> Result<Compared<'n>, AllocError> {
    let mut compared = Compared {
        matched: Vec::new(context.alloc),
        removed: Vec::new(context.alloc),
        added: Vec::new(context.alloc),
        unread: Vec::from_slice(context.alloc, lost)?,
    };
    let mut room = buffer(context.alloc, OFFERED)?;
    let buf = room.as_mut_slice();
    let mut lines_left = lines;
    let mut names_left = names;
    while let Some(side) = first_by_path(lines_left, names_left) {
        add_side(context, kind, lost, side, buf, &mut compared, err)?;
        lines_left = &lines_left[side.lines()..];
        names_left = &names_left[side.names()..];
    }
    Ok(compared)
}

// Adds a row of the merge, with the digest of its name.
fn add_side<'n, S: Store, T: TimedSink, E: Sink>(
    context: &Context<'_, S, T>,
    kind: Kind,
    lost: &[&[u8]],
    side: Side<FileDigest<'n>, &'n [u8]>,
    buf: &mut [u8],
    compared: &mut Compared<'n>,
    err: &mut E,
) -> Result<(), AllocError> {
    match side {
        Side::Line(line) => add_line(lost, line, compared)?,
        Side::Name(name) => match digest_name(context, kind, name, buf, err) {
            Some(found) => compared.added.push(found)?,
            None => compared.unread.push(name)?,
        },
        Side::Both(line, name) => match digest_name(context, line.kind, name, buf, err) {
            Some(found) => compared.matched.push(Verdict::met(line, found))?,
            None => compared.unread.push(name)?,
        },
    }
    Ok(())
}

// Adds a line whose name was not given.
fn add_line<'n>(
    lost: &[&[u8]],
    line: FileDigest<'n>,
    compared: &mut Compared<'n>,
) -> Result<(), AllocError> {
    if is_hidden(lost, line.name) {
        compared.unread.push(line.name)?;
    } else {
        compared.removed.push(line)?;
    }
    Ok(())
}

// True if the name is one of these, or below one of them.
fn is_hidden(lost: &[&[u8]], name: &[u8]) -> bool {
    for folder in lost {
        if hides(folder, name) {
            return true;
        }
    }
    false
}

// Hashes the file of a name. Returns `None` if it has no digest, which is reported.
fn digest_name<'n, S: Store, T: TimedSink, E: Sink>(
    context: &Context<'_, S, T>,
    kind: Kind,
    name: &'n [u8],
    buf: &mut [u8],
    err: &mut E,
) -> Option<FileDigest<'n>> {
    let outcome = outcome_of(context, kind, name, buf);
    eprint_outcome(name, &outcome, err);
    match outcome {
        Outcome::Digested { value } => Some(FileDigest { name, kind, value }),
        Outcome::IsDirectory | Outcome::Unread { .. } => None,
    }
}
