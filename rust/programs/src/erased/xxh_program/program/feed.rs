// SPDX-License-Identifier: MIT
// crates/xxh_program/src/program/feed.rt without its contracts, written by rust/erase --programs: change that file.

//! The interface of hashers for the digest engine, and the loop that feeds them.

use crate::programs::xxh_io::digest_error::DigestError;
use crate::programs::xxh_io::streams::{Failed, Source};

/// A hasher of any algorithm, as the engine uses it.
pub(crate) trait Feed {
    /// Hashes one more chunk.
    fn feed(&mut self, piece: &[u8]);

    /// Returns the hash of the chunks so far.
    fn value(&self) -> u128;
}

// Feeds the hasher what is read, until a read returns nothing. Each read is offered the whole buffer.
pub(crate) fn read_all<H: Feed, R: Source>(
    hasher: H,
    max_reads: u64,
    r: &mut R,
    buf: &mut [u8],
) -> Result<H, DigestError> {
    let mut hasher = hasher;
    for turn in 0..max_reads {
        match r.read(buf) {
            Ok(0) => return Ok(hasher),
            Ok(count) => hasher.feed(&buf[..count]),
            Err(Failed) => return Err(DigestError::ReadFailed),
        }
    }
    Err(DigestError::TooLong)
}
