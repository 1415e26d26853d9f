// SPDX-License-Identifier: MIT
// crates/xxh_program/src/program/value.rt without its contracts, written by rust/erase --programs: change that file.

//! The hash of a source's bytes, by algorithm.

use crate::programs::xxh_program::program::feed::{Feed, read_all};
use crate::programs::xxh_program::program::hasher_3_64::with_seed_64;
use crate::programs::xxh_program::program::hasher_3_128::with_seed_128;
use crate::programs::twox_hash::{XxHash32, XxHash64};
use crate::programs::xxh_io::digest_error::DigestError;
use crate::programs::xxh_io::kind::Kind;
use crate::programs::xxh_io::streams::Source;

// Returns the value of what is read, by a hasher of no bytes whose value is the algorithm's under the seed.
fn value_by<H: Feed, R: Source>(
    kind: Kind,
    seed: u64,
    hasher: H,
    max_reads: u64,
    r: &mut R,
    buf: &mut [u8],
) -> Result<u128, DigestError> {
    let hasher = read_all(hasher, max_reads, r, buf)?;
    Ok(hasher.value())
}

/// Reads to the end of the source and returns the hash of what was read, by this algorithm under the seed. Its number
/// of digits determines how many of the value's bits it has. Each read is offered the whole buffer (not in a clause).
///
/// The caller proves that the source has not failed, that the buffer is not empty, and that the seed of [`Kind::X32`]
/// is below 2^32.
///
/// # Errors
///
/// - [`DigestError::ReadFailed`] if and only if the source has failed afterwards.
/// - [`DigestError::TooLong`] if and only if `max_reads` reads each returned at least one byte. No further read was
///   made. With `max_reads` 0 that is immediate.
pub fn value_of_source<R: Source>(
    kind: Kind,
    seed: u64,
    max_reads: u64,
    r: &mut R,
    buf: &mut [u8],
) -> Result<u128, DigestError> {
    match kind {
        Kind::X32 => {
            let hasher = XxHash32::with_seed(seed as u32);
            value_by(kind, seed, hasher, max_reads, r, buf)
        }
        Kind::X64 => {
            let hasher = XxHash64::with_seed(seed);
            value_by(kind, seed, hasher, max_reads, r, buf)
        }
        Kind::X3_64 => {
            let hasher = with_seed_64(seed);
            value_by(kind, seed, hasher, max_reads, r, buf)
        }
        Kind::X3_128 => {
            let hasher = with_seed_128(seed);
            value_by(kind, seed, hasher, max_reads, r, buf)
        }
    }
}
