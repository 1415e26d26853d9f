// SPDX-License-Identifier: MIT
// crates/xxh_io/src/heap.rt without its contracts, written by rust/erase --programs: change that file.

//! Buffers on the heap, which need no stack.

use crate::rattle::prelude::{Vec, vec};
use crate::rattle::{AllocError, Global};

/// Returns a buffer of `room` zero bytes. Returns `AllocError` if out of memory.
pub fn buffer(alloc: Global, room: usize) -> Result<Vec<u8>, AllocError> {
    Ok(vec![in alloc; 0u8; room]?)
}
