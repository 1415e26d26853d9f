// SPDX-License-Identifier: MIT
// crates/xxhsum_fs/src/store.rt without its contracts, written by rust/erase --programs: change that file.

//! The trait of file stores.

use crate::programs::xxh_io::refusal::Refusal;
use crate::programs::xxh_io::streams::Source;

/// Files by name. A name is bytes, as for the system, and needn't be UTF-8.
pub trait Store {
    /// An open file. It is closed when it is dropped.
    type File: Source ;

    /// True if the name is a directory.
    fn is_directory(&self, name: &[u8]) -> bool;

    /// Returns the size in bytes of the file of this name, as far as the store can determine before reading it. Only
    /// progress uses it.
    fn size(&self, name: &[u8]) -> Option<u64>;

    /// Opens the file of this name for reading. Its first read may still fail, as a directory's does. An error has the
    /// reason.
    fn open(&self, name: &[u8]) -> Result<Self::File, Refusal>;
}
