// SPDX-License-Identifier: MIT
// crates/xxhsum_audit/src/list.rt without its contracts, written by rust/erase --programs: change that file.

//! The entries of a list.

use crate::rattle::prelude::Vec;
use crate::rattle::{AllocError, Global};
use crate::programs::xxhsum_line::entry::{Entry, Meaning, meaning_of};

/// Appends the entry of a line; nothing for a comment. Returns `false` if it is malformed. Returns `AllocError` if out
/// of memory.
pub fn take_line(
    alloc: Global,
    line: &[u8],
    is_little: bool,
    entries: &mut Vec<Entry>,
) -> Result<bool, AllocError> {
    match meaning_of(alloc, line, is_little)? {
        Meaning::Entry(entry) => {
            entries.push(entry)?;
            Ok(true)
        }
        Meaning::Comment => Ok(true),
        Meaning::Malformed => Ok(false),
    }
}
