// SPDX-License-Identifier: MIT
// crates/xxh_program/src/program/hasher_64.rt without its contracts, written by rust/erase --programs: change that file.

//! XXH64 in the digest engine.

use crate::programs::xxh_program::program::engine::{OFFERED, digest_on};
use crate::programs::xxh_program::program::feed::{Feed, read_all};
use crate::programs::twox_hash::XxHash64;
use crate::programs::xxh_io::digest_error::DigestError;
use crate::programs::xxh_io::streams::{Sink, Source};

impl Feed for XxHash64 {
    fn feed(&mut self, piece: &[u8]) {
        self.write(piece);
    }

    fn value(&self) -> u128 {
        u128::from(self.finish())
    }
}

/// Continues from the hasher as `digest` does from a new one, with the same errors: the line is that of the bytes
/// hashed before followed by what is read.
pub fn digest_from_64<R: Source, W: Sink>(
    hasher: XxHash64,
    max_reads: u64,
    r: &mut R,
    w: &mut W,
) -> Result<(), DigestError> {
    digest_on::<_, _, _, OFFERED>(hasher, 16, max_reads, r, w)
}

/// Reads as `digest` does, with the same read errors, and returns the hasher after what was read.
pub fn read_on_64<R: Source>(
    hasher: XxHash64,
    max_reads: u64,
    r: &mut R,
) -> Result<XxHash64, DigestError> {
    read_all(hasher, max_reads, r, &mut [0; OFFERED])
}
