// SPDX-License-Identifier: MIT
// crates/xxhsum_output/src/messages.rt without its contracts, written by rust/erase --programs: change that file.

//! A sink that passes on whole messages.

use crate::programs::xxhsum_output::output::Output;
use crate::programs::xxh_io::streams::{Failed, Sink};

/// A sink in front of one that may hold bytes. It passes on its parts, and writes what is held after each part that
/// ends with a newline. So a message of many parts is one write.
pub struct Messages<W> {
    inner: W,
}

impl<W: Output> Messages<W> {
    /// Wraps this sink.
    pub fn new(inner: W) -> Messages<W> {
        Messages { inner }
    }

    /// Returns the inner sink.
    pub fn into_inner(self) -> W {
        let Messages { inner } = self;
        inner
    }

    /// Lemma (no code), the laws of such a sink: the inner sink took and refused the bytes that this one did.
    pub fn laws() {}
}

impl<W: Output> Sink for Messages<W> {
    fn failed(&self) -> bool {
        self.inner.failed()
    }

    fn write(&mut self, bytes: &[u8]) -> Result<usize, Failed> {
        let count = self.inner.write(bytes)?;
        if bytes[..count].ends_with(b"\n") {
            self.inner.release();
        }
        Ok(count)
    }
}
