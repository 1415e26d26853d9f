// SPDX-License-Identifier: MIT
// crates/xxhsum_app/src/audit.rt without its contracts, written by rust/erase --programs: change that file.

//! Audits names against a list of digests.

use crate::rattle::prelude::Vec;
use crate::programs::xxhsum_app::digests::digests_of;
use crate::programs::xxhsum_app::read_list::read_list;
use crate::programs::xxhsum_app::report::{is_good, print_report};
use crate::rattle::{AllocError, Global};
use crate::programs::xxh_io::kind::Kind;
use crate::programs::xxh_io::streams::Sink;
use crate::programs::xxhsum_audit::digest::FileDigest;
use crate::programs::xxhsum_audit::moves::{Compared, verdicts};
use crate::programs::xxhsum_audit::order::{find_duplicate, names_of, put_lines_in_order, put_names_in_order};
use crate::programs::xxhsum_fs::store::Store;
use crate::programs::xxhsum_line::entry::Entry;
use crate::programs::xxhsum_output::output::Output;
use crate::programs::xxhsum_program::context::Context;
use crate::programs::xxhsum_program::stderr::eprint_line;
use crate::programs::xxhsum_program::stop::Stop;
use crate::programs::xxhsum_program::streams::Streams;
use crate::programs::xxhsum_program::terminal::TimedSink;

/// Compares the names with the lines of the list of this name, and prints a verdict on each. Returns whether all are
/// the same.
///
/// A list that can't be read, a malformed line, and a duplicate line or name are reported, and then nothing is printed.
/// A name without a digest is reported, and printed as unreadable; so are the names that are `lost`, which a walk could
/// not read, and the lines of names below them.
///
/// The caller shows that no write to the output has failed before.
///
/// # Errors
///
/// [`Stop::WriteFailed`] if a write to standard output fails, and [`Stop::OutOfMemory`] if memory runs out.
pub fn audit_names<S: Store, T: TimedSink, W: Output, E: Sink>(
    context: &Context<'_, S, T>,
    lost: &[Vec<u8>],
    list: &[u8],
    names: &[Vec<u8>],
    streams: &mut Streams<W, E>,
) -> Result<bool, Stop> {
    streams.release();
    audit_list(context, lost, list, names, streams)
}

// Compares the names with the lines of the list of this name. The caller shows that all output is written.
fn audit_list<S: Store, T: TimedSink, W: Output, E: Sink>(
    context: &Context<'_, S, T>,
    lost: &[Vec<u8>],
    list: &[u8],
    names: &[Vec<u8>],
    streams: &mut Streams<W, E>,
) -> Result<bool, Stop> {
    let Some(entries) = read_list(context, list, streams.messages())? else {
        return Ok(false);
    };
    audit_lines(context, lost, list, &entries, names, streams)
}

// Compares the names with the entries of a list.
fn audit_lines<S: Store, T: TimedSink, W: Output, E: Sink>(
    context: &Context<'_, S, T>,
    lost: &[Vec<u8>],
    list: &[u8],
    entries: &[Entry],
    names: &[Vec<u8>],
    streams: &mut Streams<W, E>,
) -> Result<bool, Stop> {
    let lines = lines_in_order(context.alloc, entries)?;
    let requested = names_in_order(context.alloc, names)?;
    let listed = names_of(context.alloc, &lines)?;
    let lost = borrowed_names(context.alloc, lost)?;
    let err = streams.messages();
    if eprint_duplicate(list, &listed, err) {
        return Ok(false);
    }
    if eprint_duplicate(b"Error", &requested, err) {
        return Ok(false);
    }
    audit_sides(context, &lost, &lines, &requested, streams)
}

// Returns the entries, ordered by name.
fn lines_in_order(alloc: Global, entries: &[Entry]) -> Result<Vec<FileDigest<'_>>, AllocError> {
    let mut lines = digests_of_entries(alloc, entries)?;
    put_lines_in_order(&mut lines);
    Ok(lines)
}

// Returns the names, in order.
fn names_in_order(alloc: Global, names: &[Vec<u8>]) -> Result<Vec<&[u8]>, AllocError> {
    let mut requested = borrowed_names(alloc, names)?;
    put_names_in_order(&mut requested);
    Ok(requested)
}

// Returns the entries as digests.
fn digests_of_entries(alloc: Global, entries: &[Entry]) -> Result<Vec<FileDigest<'_>>, AllocError> {
    let mut lines = Vec::new(alloc);
    for line in entries {
        lines.push(FileDigest {
            name: &line.name,
            kind: line.kind,
            value: line.value,
        })?;
    }
    Ok(lines)
}

fn borrowed_names(alloc: Global, names: &[Vec<u8>]) -> Result<Vec<&[u8]>, AllocError> {
    let mut requested = Vec::new(alloc);
    for name in names {
        requested.push(name.as_slice())?;
    }
    Ok(requested)
}

// Reports the first name that leads to the same place as the next one. Returns whether there is one.
fn eprint_duplicate<E: Sink>(among: &[u8], names: &[&[u8]], err: &mut E) -> bool {
    match find_duplicate(names) {
        Some(name) => {
            eprint_line(&[among, b": duplicate name '", name, b"'."], err);
            true
        }
        None => false,
    }
}

// Hashes the names, merged with the lines, both in order, and prints the verdicts.
fn audit_sides<S: Store, T: TimedSink, W: Output, E: Sink>(
    context: &Context<'_, S, T>,
    lost: &[&[u8]],
    lines: &[FileDigest<'_>],
    requested: &[&[u8]],
    streams: &mut Streams<W, E>,
) -> Result<bool, Stop> {
    let kind = kind_of_new(lines, context.options.kind);
    let compared = digests_of(context, kind, lost, lines, requested, streams.messages())?;
    let Compared {
        matched,
        removed,
        added,
        unread,
    } = compared;
    let found = verdicts(context.alloc, matched, removed, added)?;
    print_report(
        context.alloc,
        context.options,
        &found,
        &unread,
        &mut streams.out,
    )?;
    Ok(is_good(&found, &unread))
}

// Returns the algorithm for names without a line: that of the first line in the order of names.
fn kind_of_new(lines: &[FileDigest<'_>], without: Kind) -> Kind {
    match lines.first() {
        Some(line) => line.kind,
        None => without,
    }
}

/// Lemma: a good audit means equal files. If `audit_names` returns true, each line of the list has a file among the
/// names, whose bytes have the line's value, and each name belongs to such a line.
pub fn audit_means_equal<S: Store, W: Output, E: Sink>() {}
