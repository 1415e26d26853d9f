// SPDX-License-Identifier: MIT
// crates/xxhsum_fs/src/memory.rt without its contracts, written by rust/erase --programs: change that file.

//! Files in memory, for tests: a table of names and of their sources.

use crate::programs::xxhsum_fs::store::Store;
use crate::programs::xxh_io::refusal::{MISSING, Refusal};
use crate::programs::xxh_io::streams::Source;

/// A name and its source.
#[derive(Clone, Copy)]
pub struct MemoryEntry<'a, S> {
    /// The name, byte for byte as it is passed to `open`.
    pub name: &'a [u8],
    /// The source that each open of this name reads, from its start.
    pub source: S,
    /// True if the name is a directory.
    pub is_directory: bool,
}

/// A table of names as a store. If two entries have one name, the first is used.
///
/// Over `SliceSource` a file has exactly the bytes of the slice; over `ScriptSource` a read may also fail.
#[derive(Clone, Copy)]
pub struct MemoryFiles<'a, S> {
    entries: &'a [MemoryEntry<'a, S>],
}

impl<'a, S: Copy> MemoryFiles<'a, S> {
    /// Creates the store of this table.
    pub fn new(entries: &'a [MemoryEntry<'a, S>]) -> MemoryFiles<'a, S> {
        MemoryFiles { entries }
    }

    // Returns the first entry of this name.
    fn find(&self, name: &[u8]) -> Option<&MemoryEntry<'a, S>> {
        self.entries.iter().find(|entry| entry.name == name)
    }
}

impl<S: Source + Copy> Store for MemoryFiles<'_, S> {
    type File = S;

    fn is_directory(&self, name: &[u8]) -> bool {
        match self.find(name) {
            Some(entry) => entry.is_directory,
            None => false,
        }
    }

    fn size(&self, _name: &[u8]) -> Option<u64> {
        None
    }

    fn open(&self, name: &[u8]) -> Result<S, Refusal> {
        let Some(entry) = self.find(name) else {
            return Err(Refusal::new(MISSING, b"No such file or directory"));
        };
        if entry.source.failed() {
            return Err(Refusal::new(5, b"Input/output error"));
        }
        Ok(entry.source)
    }
}
