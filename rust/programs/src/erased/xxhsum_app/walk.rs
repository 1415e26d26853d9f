// SPDX-License-Identifier: MIT
// crates/xxhsum_app/src/walk.rt without its contracts, written by rust/erase --programs: change that file.

//! Finds the files below folders.

use crate::rattle::prelude::Vec;
use crate::programs::xxhsum_app::names::add_name;
use crate::rattle::{AllocError, Global};
use crate::programs::xxh_io::refusal::Refusal;
use crate::programs::xxh_io::streams::Sink;
use crate::programs::xxhsum_fs::folders::{FolderError, Folders, PathKind};
use crate::programs::xxhsum_fs::store::Store;
use crate::programs::xxhsum_options::exclude::is_excluded;
use crate::programs::xxhsum_program::hash::eprint_outcome;
use crate::programs::xxhsum_program::outcome::{Outcome, Reason};
use crate::programs::xxhsum_program::stop::Stop;

/// The result of a walk.
pub struct Walked {
    /// The names of the files, in order.
    pub files: Vec<Vec<u8>>,
    /// The folders that could not be read, and the names in folders that could not be looked up.
    pub unread: Vec<Vec<u8>>,
}

// A name to visit: a given name, or a name in a folder.
pub(crate) struct Waiting {
    pub(crate) name: Vec<u8>,
    pub(crate) is_given: bool,
}

/// Returns the files of these names, with each folder replaced by the files below it, in the order of the bytes of
/// their names.
///
/// A given name that is a link is followed. Links in folders are skipped, and so is anything that is neither a file nor
/// a folder, and each name that a pattern of `--exclude` in `flags` matches. A folder that can't be read, and a
/// name in a folder that can't be looked up, is reported.
///
/// # Errors
///
/// [`Stop::OutOfMemory`] if memory for the names runs out.
pub fn files_below<S: Store + Folders, E: Sink>(
    alloc: Global,
    store: &S,
    flags: &[Vec<u8>],
    names: &[Vec<u8>],
    err: &mut E,
) -> Result<Walked, Stop> {
    let mut walked = Walked {
        files: Vec::new(alloc),
        unread: Vec::new(alloc),
    };
    let mut waiting = Vec::new(alloc);
    put_names(alloc, b"", true, names, &mut waiting)?;
    for _ in 0..u64::MAX {
        let Some(place) = waiting.pop() else {
            return Ok(walked);
        };
        visit(alloc, store, flags, place, &mut waiting, &mut walked, err)?;
    }
    Err(Stop::OutOfMemory)
}

// Pushes the names in a folder, so that the first of them is visited next.
fn put_names(
    alloc: Global,
    folder: &[u8],
    is_given: bool,
    names: &[Vec<u8>],
    waiting: &mut Vec<Waiting>,
) -> Result<(), AllocError> {
    for at in 0..names.len() {
        put_name(
            alloc,
            folder,
            is_given,
            &names[names.len() - 1 - at],
            waiting,
        )?;
    }
    Ok(())
}

fn put_name(
    alloc: Global,
    folder: &[u8],
    is_given: bool,
    name: &[u8],
    waiting: &mut Vec<Waiting>,
) -> Result<(), AllocError> {
    let mut path = Vec::new(alloc);
    path.extend_from_slice(folder)?;
    path.extend_from_slice(name)?;
    waiting.push(Waiting {
        name: path,
        is_given,
    })?;
    Ok(())
}

// Visits a name: adds a file, or pushes the names in a folder.
fn visit<S: Store + Folders, E: Sink>(
    alloc: Global,
    store: &S,
    flags: &[Vec<u8>],
    place: Waiting,
    waiting: &mut Vec<Waiting>,
    walked: &mut Walked,
    err: &mut E,
) -> Result<(), Stop> {
    let Waiting { name, is_given } = place;
    match kind_at(store, &name, is_given) {
        PathKind::File => {
            add_file(name, &mut walked.files)?;
            Ok(())
        }
        PathKind::Folder => open_folder(alloc, store, flags, &name, waiting, walked, err),
        PathKind::Other => Ok(()),
        PathKind::Unknown(refusal) => add_unread(alloc, &name, refusal, &mut walked.unread, err),
    }
}

// Returns the kind of a name. A given link is followed.
fn kind_at<S: Store + Folders>(store: &S, name: &[u8], is_given: bool) -> PathKind {
    if !is_given {
        return store.kind_of(name);
    }
    if store.is_directory(name) {
        PathKind::Folder
    } else {
        PathKind::File
    }
}

fn add_file(name: Vec<u8>, files: &mut Vec<Vec<u8>>) -> Result<(), AllocError> {
    files.push(name)?;
    Ok(())
}

// Pushes the names in a folder, in order. Reports a folder that can't be read.
fn open_folder<S: Store + Folders, E: Sink>(
    alloc: Global,
    store: &S,
    flags: &[Vec<u8>],
    name: &[u8],
    waiting: &mut Vec<Waiting>,
    walked: &mut Walked,
    err: &mut E,
) -> Result<(), Stop> {
    let folder = with_slash(alloc, name)?;
    match store.names_in(alloc, &folder) {
        Ok(names) => {
            let kept = kept(alloc, flags, &names)?;
            let ordered = in_order(kept);
            put_names(alloc, &folder, false, &ordered, waiting)?;
            Ok(())
        }
        Err(FolderError::OutOfMemory) => Err(Stop::OutOfMemory),
        Err(FolderError::Refused(refusal)) => {
            add_unread(alloc, name, refusal, &mut walked.unread, err)
        }
    }
}

// Returns the names that no pattern of these arguments matches.
fn kept(alloc: Global, flags: &[Vec<u8>], names: &[Vec<u8>]) -> Result<Vec<Vec<u8>>, AllocError> {
    let mut kept = Vec::new(alloc);
    for name in names {
        add_kept(alloc, flags, name, &mut kept)?;
    }
    Ok(kept)
}

// Appends the name, unless a pattern of these arguments matches it.
fn add_kept(
    alloc: Global,
    flags: &[Vec<u8>],
    name: &[u8],
    kept: &mut Vec<Vec<u8>>,
) -> Result<(), AllocError> {
    if is_excluded(flags, name) {
        return Ok(());
    }
    add_name(alloc, name, kept)
}

// Returns the name of a folder with a slash at its end.
fn with_slash(alloc: Global, name: &[u8]) -> Result<Vec<u8>, AllocError> {
    let mut folder = Vec::new(alloc);
    folder.extend_from_slice(name)?;
    if !name.ends_with(b"/") {
        folder.push(b'/')?;
    }
    Ok(folder)
}

// Returns the names in the order of their bytes.
fn in_order(names: Vec<Vec<u8>>) -> Vec<Vec<u8>> {
    let mut names = names;
    names.sort_unstable();
    names
}

// Adds and reports a folder that can't be read, or a name that can't be looked up. If out of memory, reports nothing.
fn add_unread<E: Sink>(
    alloc: Global,
    name: &[u8],
    refusal: Refusal,
    unread: &mut Vec<Vec<u8>>,
    err: &mut E,
) -> Result<(), Stop> {
    add_name(alloc, name, unread)?;
    let outcome = Outcome::Unread {
        reason: Reason::Unopened { refusal },
    };
    eprint_outcome(name, &outcome, err);
    Ok(())
}

/// Lemma: a walk finds exactly the files that the given names lead to through names in folders, if each folder could be
/// read and the store gives one result per name. Below one given name no path is found twice, if each name occurs once
/// in its folder and has no slash. `hash_names` then has one outcome for each.
pub fn laws_of_walks<S: Store + Folders>() {}
