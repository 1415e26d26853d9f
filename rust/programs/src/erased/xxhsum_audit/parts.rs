// SPDX-License-Identifier: MIT
// crates/xxhsum_audit/src/parts.rt without its contracts, written by rust/erase --programs: change that file.

//! Bytes that are split at each byte of one value: lines at newlines, names at NULs.

use crate::rattle::prelude::Vec;
use crate::rattle::{AllocError, Global};
use crate::programs::xxhsum_line::parts::split_at_first;

/// Returns the parts before each byte of this value, and the part after the last one if it isn't empty. Returns
/// `AllocError` if out of memory.
pub fn cut_at<'b>(alloc: Global, end: u8, bytes: &'b [u8]) -> Result<Vec<&'b [u8]>, AllocError> {
    let mut parts = Vec::new(alloc);
    let mut left = bytes;
    while let Some((part, rest)) = split_at_first(end, left) {
        parts.push(part)?;
        left = rest;
    }
    if left.is_empty() {
        return Ok(parts);
    }
    parts.push(left)?;
    Ok(parts)
}
