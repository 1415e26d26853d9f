// SPDX-License-Identifier: MIT
// crates/xxh_program/src/program/engine.rt without its contracts, written by rust/erase --programs: change that file.

//! The digest engine: reads a source to its end through a hasher, and writes the value as a line.

use crate::programs::xxh_program::program::feed::{Feed, read_all};
use crate::programs::xxh_program::program::value::value_of_source;
use crate::programs::xxh_io::digest_error::DigestError;
use crate::programs::xxh_io::kind::Kind;
use crate::programs::xxh_io::streams::{Sink, Source};
use crate::programs::xxh_io::write::write_line;

// Size of the read buffer of the public calls.
pub(crate) const OFFERED: usize = 4096;

// Feeds the hasher what is read, and writes the line of its value.
pub(crate) fn digest_on<H: Feed, R: Source, W: Sink, const READ: usize>(
    hasher: H,
    digits: usize,
    max_reads: u64,
    r: &mut R,
    w: &mut W,
) -> Result<(), DigestError> {
    let hasher = read_all(hasher, max_reads, r, &mut [0; READ])?;
    write_line(hasher.value(), digits, w)
}

// Does what `digest` does, with a read buffer of this size.
pub(crate) fn digest_reading<R: Source, W: Sink, const READ: usize>(
    kind: Kind,
    seed: u64,
    max_reads: u64,
    r: &mut R,
    w: &mut W,
) -> Result<(), DigestError> {
    let value = value_of_source(kind, seed, max_reads, r, &mut [0; READ])?;
    write_line(value, kind.digits(), w)
}

/// Reads to the end of the source and writes the digest line of what was read: the hash by this algorithm under the
/// seed, in lower-case hexadecimal with leading zeros, and a newline. Each read is offered 4,096 bytes (tested, not in
/// a clause). Allocates nothing: there is no allocator.
///
/// The caller proves that neither stream has failed and that the seed of [`Kind::X32`] is below 2^32.
///
/// # Errors
///
/// - [`DigestError::ReadFailed`] if and only if the source has failed afterwards. Nothing was written.
/// - [`DigestError::WriteFailed`] if and only if the sink has failed afterwards. A beginning of the line was written,
///   and not all of it.
/// - [`DigestError::TooLong`] if and only if `max_reads` reads each returned at least one byte. Nothing was written,
///   and no further read was made. With `max_reads` 0 that is immediate.
///
/// ```rattle
/// let mut input = FromRead::new(b"some bytes".as_slice());
/// let mut output = FromWrite::new(Vec::new(alloc));
/// digest(Kind::X64, 1234, u64::MAX, &mut input, &mut output)?; // writes eab55659a496d78b
/// ```
pub fn digest<R: Source, W: Sink>(
    kind: Kind,
    seed: u64,
    max_reads: u64,
    r: &mut R,
    w: &mut W,
) -> Result<(), DigestError> {
    digest_reading::<_, _, OFFERED>(kind, seed, max_reads, r, w)
}
