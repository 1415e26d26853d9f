// SPDX-License-Identifier: MIT
// crates/xxhsum_program/src/outcome.rt without its contracts, written by rust/erase --programs: change that file.

//! The outcome of one name in a hashing run.

use crate::programs::xxhsum_program::context::Context;
use crate::programs::xxhsum_program::progress_reader::ProgressDisplay;
use crate::programs::xxhsum_program::terminal::TimedSink;
use crate::programs::xxh_io::digest_error::DigestError;
use crate::programs::xxh_io::kind::Kind;
use crate::programs::xxh_io::refusal::Refusal;
use crate::programs::xxh_io::streams::Source;
use crate::programs::xxhsum_fs::store::Store;

/// Size of the buffer for each read of a file, in bytes.
pub const OFFERED: usize = 131072;

/// The outcome of a name.
#[derive(Clone, Copy, Debug, PartialEq, Eq)]
pub enum Outcome {
    /// The file was read to its end and has this value.
    Digested { value: u128 },
    /// The name is a directory.
    IsDirectory,
    /// The name has no value.
    Unread { reason: Reason },
}

/// The reason why a name that isn't a directory has no value.
#[derive(Clone, Copy, Debug, PartialEq, Eq)]
pub enum Reason {
    /// The file could not be opened.
    Unopened { refusal: Refusal },
    /// A read of the file failed.
    ReadFailed { refusal: Refusal },
    /// The file is too long: 2^64 - 1 reads did not reach its end.
    TooLong,
}

impl Outcome {
    /// True if the name has a value.
    pub fn is_digested(&self) -> bool {
        match self {
            Outcome::Digested { .. } => true,
            Outcome::IsDirectory | Outcome::Unread { .. } => false,
        }
    }
}

impl Reason {
    // True if there is no file of this name.
    pub(crate) fn is_missing(&self) -> bool {
        match self {
            Reason::Unopened { refusal } => refusal.is_missing(),
            Reason::ReadFailed { .. } | Reason::TooLong => false,
        }
    }

    // Returns the reason as text: the system's message if the file can't be opened or read.
    pub(crate) fn text(&self) -> &[u8] {
        match self {
            Reason::Unopened { refusal } | Reason::ReadFailed { refusal } => refusal.text(),
            Reason::TooLong => b"the input file is too long",
        }
    }

    // Returns the step that failed: `open` or `read`.
    pub(crate) fn step(&self) -> &[u8] {
        match self {
            Reason::Unopened { .. } => b"open",
            Reason::ReadFailed { .. } | Reason::TooLong => b"read",
        }
    }
}

// Returns the reason for an error of reading a file, if `refusal` is the system's error of the read. Reading a file writes
// nothing, so a write can't fail here.
pub(crate) fn reason_of(error: DigestError, refusal: Refusal) -> Reason {
    match error {
        DigestError::ReadFailed | DigestError::WriteFailed => Reason::ReadFailed { refusal },
        DigestError::TooLong => Reason::TooLong,
    }
}

/// Opens and hashes the file of this name. Each read is offered the whole of `buf`. An error is the reason why there is
/// no value.
pub(crate) fn value_named<S: Store, T: TimedSink>(
    store: &S,
    progress: ProgressDisplay<T>,
    kind: Kind,
    name: &[u8],
    buf: &mut [u8],
) -> Result<u128, Reason> {
    match progress.open(store, name) {
        Ok(file) => {
            let mut file = file;
            match file.value(kind, buf) {
                Ok(value) => Ok(value),
                Err(error) => Err(reason_of(error, file.failure())),
            }
        }
        Err(refusal) => Err(Reason::Unopened { refusal }),
    }
}

/// Opens and hashes the file of this name. Each read is offered the whole of `buf`. Directories are found by
/// `is_directory` of the store.
pub fn outcome_of<S: Store, T: TimedSink>(
    context: &Context<'_, S, T>,
    kind: Kind,
    name: &[u8],
    buf: &mut [u8],
) -> Outcome {
    if context.store.is_directory(name) {
        return Outcome::IsDirectory;
    }
    match value_named(context.store, context.progress, kind, name, buf) {
        Ok(value) => Outcome::Digested { value },
        Err(reason) => Outcome::Unread { reason },
    }
}
