// SPDX-License-Identifier: MIT
// crates/xxh_io/src/script_sink.rt without its contracts, written by rust/erase --programs: change that file.

//! A sink in memory that follows a script and exposes its bytes.

use crate::programs::xxh_io::streams::{Failed, Sink};

/// A sink for `N` bytes that takes a limited number of bytes per write, and fails at one write. Allocates nothing.
///
/// Write j, counted from 1, fails if j is `fail_at` (0 never fails), or if the sink is full and bytes are passed.
/// Otherwise it takes as many bytes as the least of `take`, the bytes passed, and the space left.
pub struct ScriptSink<const N: usize> {
    bytes: [u8; N],
    len: usize,
    take: usize,
    fail_at: u64,
    writes: u64,
    failed: bool,
}

impl<const N: usize> ScriptSink<N> {
    /// Creates an empty sink. The caller proves that it takes at least one byte a write.
    pub fn new(take: usize, fail_at: u64) -> ScriptSink<N> {
        ScriptSink {
            bytes: [0; N],
            len: 0,
            take,
            fail_at,
            writes: 0,
            failed: false,
        }
    }

    /// Returns the bytes that were taken.
    pub fn bytes(&self) -> &[u8] {
        &self.bytes[..self.len]
    }
}

impl<const N: usize> Sink for ScriptSink<N> {
    fn failed(&self) -> bool {
        self.failed
    }

    fn write(&mut self, bytes: &[u8]) -> Result<usize, Failed> {
        self.writes = self.writes.saturating_add(1);
        let room = N - self.len;
        if self.writes == self.fail_at || room == 0 {
            self.failed = true;
            return Err(Failed);
        }
        let count = self.take.min(bytes.len()).min(room);
        let all = &mut self.bytes[..];
        all[self.len..self.len + count].copy_from_slice(&bytes[..count]);
        self.len += count;
        Ok(count)
    }
}
