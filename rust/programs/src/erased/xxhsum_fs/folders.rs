// SPDX-License-Identifier: MIT
// crates/xxhsum_fs/src/folders.rt without its contracts, written by rust/erase --programs: change that file.

//! The names in directories.

use crate::rattle::prelude::Vec;
use crate::rattle::{AllocError, Global};
use crate::programs::xxh_io::refusal::Refusal;

/// The type of a path, without following links.
#[derive(Clone, Copy, Debug, PartialEq, Eq)]
pub enum PathKind {
    /// A directory.
    Folder,
    /// A file; also a name that is not UTF-8, or that has vanished, for which opening returns the error.
    File,
    /// A link, a device, a pipe or a socket.
    Other,
    /// The store can't determine it, for this reason.
    Unknown(Refusal),
}

/// The error for a directory whose names are not known.
#[derive(Clone, Copy, Debug, PartialEq, Eq)]
pub enum FolderError {
    /// The directory can't be opened or read.
    Refused(Refusal),
    /// Out of memory.
    OutOfMemory,
}

impl From<AllocError> for FolderError {
    fn from(_error: AllocError) -> FolderError {
        FolderError::OutOfMemory
    }
}

/// Directories by name, in bytes as for files.
pub trait Folders {
    /// Returns the type of the path, without following links.
    fn kind_of(&self, name: &[u8]) -> PathKind;

    /// Returns the names in the directory of this name, which ends with a slash, in any order, without `.` and `..`.
    ///
    /// # Errors
    ///
    /// - [`FolderError::Refused`] if the directory can't be opened or read.
    /// - [`FolderError::OutOfMemory`] if out of memory.
    fn names_in(&self, alloc: Global, folder: &[u8]) -> Result<Vec<Vec<u8>>, FolderError>;
}
