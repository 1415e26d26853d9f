// SPDX-License-Identifier: MIT
// crates/xxh_io/src/from_write.rt without its contracts, written by rust/erase --programs: change that file.

//! Standard writers as sinks.

use crate::programs::xxh_io::streams::{Failed, Sink};
use crate::rattle::io::Write;

/// A standard writer as a sink. Every error of a write is a failure, and so is a write that takes nothing.
pub struct FromWrite<W> {
    inner: W,
    failed: bool,
}

impl<W: Write> FromWrite<W> {
    /// Creates a sink that has not failed.
    pub fn new(inner: W) -> FromWrite<W> {
        FromWrite {
            inner,
            failed: false,
        }
    }

    /// Flushes the writer. Every error is a failure of the sink; the writer keeps the bytes that it holds.
    pub fn flush(&mut self) -> Result<(), Failed> {
        let flushed = self.inner.flush();
        self.failed = self.failed || flushed.is_err();
        match flushed {
            Ok(()) => Ok(()),
            Err(_) => Err(Failed),
        }
    }

    /// Returns the writer.
    pub fn into_inner(self) -> W {
        let FromWrite { inner, failed: _ } = self;
        inner
    }
}

impl<W: Write> Sink for FromWrite<W> {
    fn failed(&self) -> bool {
        self.failed
    }

    fn write(&mut self, bytes: &[u8]) -> Result<usize, Failed> {
        match self.inner.write(bytes) {
            Ok(count) if count > 0 => Ok(count),
            _ => {
                self.failed = true;
                Err(Failed)
            }
        }
    }
}

/// Lemma (no code): if a writer exposes the bytes that it holds, then after it took some chunks it holds those from
/// before plus the chunks.
pub fn writer_pieces<W: Write>() {}
