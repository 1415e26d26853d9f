// SPDX-License-Identifier: MIT
// crates/xxhsum_fs/src/below.rt without its contracts, written by rust/erase --programs: change that file.

//! Names relative to a directory.

use crate::rattle::prelude::Vec;
use crate::programs::xxhsum_fs::folders::{FolderError, Folders, PathKind};
use crate::programs::xxhsum_fs::store::Store;
use crate::rattle::Global;
use crate::programs::xxh_io::refusal::Refusal;

// Maximum length of the path of a name below a directory, in bytes: `PATH_MAX` without the NUL.
const MOST: usize = 4095;

// `ENAMETOOLONG`, the system's error number for a path that is too long.
const TOO_LONG: i32 = 36;

/// A store below a directory of another one: its names are relative to the directory, unless they begin with a slash or
/// are empty. The directory may be empty: then it is the store itself.
#[derive(Clone, Copy)]
pub struct Below<'a, S> {
    directory: &'a [u8],
    store: &'a S,
}

// A path in the other store: the name itself, or the name below the directory.
enum Path<'n> {
    Itself(&'n [u8]),
    Joined(Joined),
}

// A path of limited length.
struct Joined {
    bytes: [u8; MOST],
    len: usize,
}

impl Joined {
    // Appends bytes that fit.
    fn append(&mut self, bytes: &[u8]) {
        let all = &mut self.bytes[..];
        all[self.len..self.len + bytes.len()].copy_from_slice(bytes);
        self.len += bytes.len();
    }
}

impl Path<'_> {
    // True if the name is not relative: it is empty, or begins with a slash.
    fn stays(name: &[u8]) -> bool {
        match name.split_first() {
            Some((first, _)) => *first == b'/',
            None => true,
        }
    }

    // Returns the error for a path that is too long.
    fn too_long() -> Refusal {
        Refusal::new(TOO_LONG, b"File name too long")
    }

    fn bytes(&self) -> &[u8] {
        match self {
            Path::Itself(name) => name,
            Path::Joined(joined) => &joined.bytes[..joined.len],
        }
    }
}

impl<'a, S> Below<'a, S> {
    /// Creates the store below this directory.
    pub fn new(directory: &'a [u8], store: &'a S) -> Below<'a, S> {
        Below { directory, store }
    }

    // Returns the path of a name, or `None` if it is too long.
    fn path_of<'n>(&self, name: &'n [u8]) -> Option<Path<'n>> {
        if self.directory.is_empty() || Path::stays(name) {
            return Some(Path::Itself(name));
        }
        if self.directory.len() + 1 + name.len() > MOST {
            return None;
        }
        let mut joined = Joined {
            bytes: [0; MOST],
            len: 0,
        };
        joined.append(self.directory);
        joined.append(b"/");
        joined.append(name);
        Some(Path::Joined(joined))
    }
}

impl<S: Store> Store for Below<'_, S> {
    type File = S::File;

    fn is_directory(&self, name: &[u8]) -> bool {
        match self.path_of(name) {
            Some(path) => self.store.is_directory(path.bytes()),
            None => false,
        }
    }

    fn size(&self, name: &[u8]) -> Option<u64> {
        match self.path_of(name) {
            Some(path) => self.store.size(path.bytes()),
            None => None,
        }
    }

    fn open(&self, name: &[u8]) -> Result<S::File, Refusal> {
        match self.path_of(name) {
            Some(path) => self.store.open(path.bytes()),
            None => Err(Path::too_long()),
        }
    }
}

impl<S: Folders> Folders for Below<'_, S> {
    fn kind_of(&self, name: &[u8]) -> PathKind {
        match self.path_of(name) {
            Some(path) => self.store.kind_of(path.bytes()),
            None => PathKind::Unknown(Path::too_long()),
        }
    }

    fn names_in(&self, alloc: Global, folder: &[u8]) -> Result<Vec<Vec<u8>>, FolderError> {
        match self.path_of(folder) {
            Some(path) => self.store.names_in(alloc, path.bytes()),
            None => Err(FolderError::Refused(Path::too_long())),
        }
    }
}
