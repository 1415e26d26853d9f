// SPDX-License-Identifier: MIT
// crates/xxh_io/src/script_source.rt without its contracts, written by rust/erase --programs: change that file.

//! Sources in memory, which expose their bytes: one that follows a script, and one over a slice.

use crate::programs::xxh_io::refusal::Refusal;
use crate::programs::xxh_io::streams::{Failed, Source};

/// A source that returns bytes in chunks of given sizes, and fails at one read. Allocates nothing.
///
/// Read j, counted from 1, fails if j is `fail_at` (0 never fails). Otherwise it returns the next bytes: as many as the
/// least of `sizes[j - 1]`, the remaining bytes, and the buffer's length. Past the end of `sizes` it returns none. The
/// error of the read that fails is `Input/output error`.
///
/// ```rattle
/// let mut source = ScriptSource::new(b"some bytes", &[4, 1, 5], 3);
/// let mut buf = [0; 8];
/// source.read(&mut buf) // Ok(4), `some`
/// source.read(&mut buf) // Ok(1), a space
/// source.read(&mut buf) // Err(Failed)
/// ```
#[derive(Clone, Copy)]
pub struct ScriptSource<'a> {
    bytes: &'a [u8],
    sizes: &'a [usize],
    fail_at: u64,
    // Number of bytes returned so far.
    at: usize,
    reads: u64,
    failed: bool,
}

impl<'a> ScriptSource<'a> {
    /// Creates a source at its beginning.
    pub fn new(bytes: &'a [u8], sizes: &'a [usize], fail_at: u64) -> ScriptSource<'a> {
        ScriptSource {
            bytes,
            sizes,
            fail_at,
            at: 0,
            reads: 0,
            failed: false,
        }
    }

    /// Returns the number of reads, including failed ones, saturating at `u64::MAX`.
    pub fn reads(&self) -> u64 {
        let ScriptSource { reads, .. } = *self;
        reads
    }

    // Returns the number of bytes that the next read returns for a buffer of this size.
    fn next_size(&self, offered: usize) -> usize {
        let size = match usize::try_from(self.reads) {
            Ok(read) if read < self.sizes.len() => self.sizes[read],
            _ => 0,
        };
        size.min(self.bytes.len() - self.at).min(offered)
    }
}

impl Source for ScriptSource<'_> {
    fn failed(&self) -> bool {
        self.failed
    }

    fn failure(&self) -> Refusal {
        Refusal::new(5, b"Input/output error")
    }

    fn read(&mut self, buf: &mut [u8]) -> Result<usize, Failed> {
        let size = self.next_size(buf.len());
        self.reads = self.reads.saturating_add(1);
        if self.reads == self.fail_at {
            self.failed = true;
            return Err(Failed);
        }
        buf[..size].copy_from_slice(&self.bytes[self.at..self.at + size]);
        self.at += size;
        Ok(size)
    }
}

/// The bytes of a slice as a source. Each read returns as many bytes as remain and fit, and none fails.
#[derive(Clone, Copy)]
pub struct SliceSource<'a> {
    rest: &'a [u8],
}

impl<'a> SliceSource<'a> {
    /// Creates a source at its beginning.
    pub fn new(bytes: &'a [u8]) -> SliceSource<'a> {
        SliceSource { rest: bytes }
    }
}

impl Source for SliceSource<'_> {
    fn failed(&self) -> bool {
        false
    }

    fn failure(&self) -> Refusal {
        Refusal::new(0, b"")
    }

    fn read(&mut self, buf: &mut [u8]) -> Result<usize, Failed> {
        let size = self.rest.len().min(buf.len());
        let (piece, rest) = self.rest.split_at(size);
        buf[..size].copy_from_slice(piece);
        self.rest = rest;
        Ok(size)
    }
}
