// SPDX-License-Identifier: MIT
// crates/xxh_io/src/waiting.rt without its contracts, written by rust/erase --programs: change that file.

//! A buffer of bytes to be written.

use crate::programs::xxh_io::digest_error::DigestError;
use crate::programs::xxh_io::streams::Sink;
use crate::programs::xxh_io::write::write_all;

/// A buffer of at most `N` bytes to be written.
pub struct Waiting<const N: usize> {
    bytes: [u8; N],
    len: usize,
}

impl<const N: usize> Waiting<N> {
    /// Creates an empty buffer.
    pub fn new() -> Waiting<N> {
        Waiting {
            bytes: [0; N],
            len: 0,
        }
    }

    /// Returns the number of buffered bytes.
    pub fn len(&self) -> usize {
        self.len
    }

    /// Appends bytes that fit.
    pub fn append(&mut self, bytes: &[u8]) {
        let all = &mut self.bytes[..];
        all[self.len..self.len + bytes.len()].copy_from_slice(bytes);
        self.len += bytes.len();
    }

    /// Appends bytes. If they don't fit, writes the buffered ones first. An error appends nothing, and the buffered
    /// bytes stay.
    pub fn push<W: Sink>(&mut self, bytes: &[u8], w: &mut W) -> Result<(), DigestError> {
        if N - self.len < bytes.len() {
            self.flush(w)?;
        }
        self.append(bytes);
        Ok(())
    }

    /// Writes the buffered bytes. After an error they are still buffered.
    pub fn flush<W: Sink>(&mut self, w: &mut W) -> Result<(), DigestError> {
        write_all(&self.bytes[..self.len], w)?;
        self.len = 0;
        Ok(())
    }
}
