// SPDX-License-Identifier: MIT
// crates/xxhsum_program/src/entry.rt without its contracts, written by rust/erase --programs: change that file.

//! Compares one line of a list with the file that it names.

use crate::programs::xxhsum_program::outcome::{Reason, value_named};
use crate::programs::xxhsum_program::progress_reader::ProgressDisplay;
use crate::programs::xxhsum_program::terminal::TimedSink;
use crate::programs::xxhsum_fs::store::Store;
use crate::programs::xxhsum_line::entry::Entry;

/// The result of comparing a line with its file.
#[derive(Clone, Copy, Debug, PartialEq, Eq)]
pub(crate) enum Found {
    /// The file has the line's value.
    Same,
    /// The file has another value.
    Different,
    /// The file could not be opened or read to its end.
    Unread(Reason),
}

// Hashes the file that the line names, and compares the value. Each read is offered the whole of `buf`.
pub(crate) fn compare<S: Store, T: TimedSink>(
    store: &S,
    progress: ProgressDisplay<T>,
    entry: &Entry,
    buf: &mut [u8],
) -> Found {
    match value_named(store, progress, entry.kind, &entry.name, buf) {
        Ok(value) if value == entry.value => Found::Same,
        Ok(_) => Found::Different,
        Err(reason) => Found::Unread(reason),
    }
}
