// SPDX-License-Identifier: MIT
// crates/xxh_io/src/digest_error.rt without its contracts, written by rust/erase --programs: change that file.

//! Errors of a digest.

use std::error::Error;
use std::fmt;

/// The error of a call that reads to the end of a source. Its text is `read failed`, `write failed` or `too long`.
#[derive(Clone, Copy, Debug, PartialEq, Eq)]
pub enum DigestError {
    /// A read failed.
    ReadFailed,
    /// A write failed, or took nothing.
    WriteFailed,
    /// Each of the allowed reads returned at least one byte.
    TooLong,
}

impl fmt::Display for DigestError {
    fn fmt(&self, f: &mut fmt::Formatter<'_>) -> fmt::Result {
        f.write_str(match self {
            DigestError::ReadFailed => "read failed",
            DigestError::WriteFailed => "write failed",
            DigestError::TooLong => "too long",
        })
    }
}

impl Error for DigestError {}
