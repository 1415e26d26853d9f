// SPDX-License-Identifier: MIT
// crates/xxh_io/src/write.rt without its contracts, written by rust/erase --programs: change that file.

//! Bytes and digest lines, written to a sink.

use crate::programs::xxh_io::digest_error::DigestError;
use crate::programs::xxh_io::hex::write_digits;
use crate::programs::xxh_io::streams::{Failed, Sink};

// Maximum number of digits of a line.
const MOST_DIGITS: usize = 32;

/// Writes all the bytes, as many at a time as the sink takes.
pub fn write_all<W: Sink>(bytes: &[u8], w: &mut W) -> Result<(), DigestError> {
    let mut rest = bytes;
    while !rest.is_empty() {
        match w.write(rest) {
            Ok(count) => rest = &rest[count..],
            Err(Failed) => return Err(DigestError::WriteFailed),
        }
    }
    Ok(())
}

/// Writes the value's lowest digits, up to 32 of them, and a newline.
pub fn write_line<W: Sink>(value: u128, digits: usize, w: &mut W) -> Result<(), DigestError> {
    let mut line = [b'\n'; MOST_DIGITS + 1];
    write_digits(value, &mut line[..digits]);
    write_all(&line[..digits + 1], w)
}
