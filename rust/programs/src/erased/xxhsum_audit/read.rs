// SPDX-License-Identifier: MIT
// crates/xxhsum_audit/src/read.rt without its contracts, written by rust/erase --programs: change that file.

//! All bytes of a source.

use crate::rattle::prelude::Vec;
use crate::rattle::{AllocError, Global};
use crate::programs::xxh_io::heap::buffer;
use crate::programs::xxh_io::streams::Source;

// Size of the read buffer.
const OFFERED: usize = 65536;

/// Returns all bytes of a source, up to its end, however its reads split them; `None` if a read fails. Returns
/// `AllocError` if out of memory.
///
/// The caller shows that the source has not failed.
#[inline(never)]
pub fn read_text<R: Source>(alloc: Global, source: &mut R) -> Result<Option<Vec<u8>>, AllocError> {
    let mut bytes = Vec::new(alloc);
    let mut room = buffer(alloc, OFFERED)?;
    let buf = room.as_mut_slice();
    for _ in 0..u64::MAX {
        let Ok(count) = source.read(buf) else {
            return Ok(None);
        };
        if count == 0 {
            return Ok(Some(bytes));
        }
        bytes.extend_from_slice(&buf[..count])?;
    }
    Err(AllocError)
}
