// SPDX-License-Identifier: MIT
// crates/xxhsum_program/src/streams.rt without its contracts, written by rust/erase --programs: change that file.

//! Standard output and standard error.

use crate::programs::xxhsum_program::stderr::eprint_line;
use crate::programs::xxh_io::streams::Sink;
use crate::programs::xxhsum_output::output::Output;

/// Standard output and standard error of a run.
///
/// A message never appears before output that was printed before it: standard error is reached only by
/// [`Streams::messages`], whose caller shows that all output is written.
pub struct Streams<W, E> {
    /// Standard output.
    pub out: W,
    err: E,
}

impl<W: Output, E: Sink> Streams<W, E> {
    /// Returns these streams.
    pub fn new(out: W, err: E) -> Streams<W, E> {
        Streams { out, err }
    }

    /// Writes the bytes that standard output holds.
    ///
    /// The caller shows that no write to it has failed.
    pub fn release(&mut self) {
        self.out.release();
    }

    /// Returns standard error, for a message.
    ///
    /// The caller shows that all printed bytes are written, or were lost.
    pub fn messages(&mut self) -> &mut E {
        &mut self.err
    }

    /// Reports the parts as one line, as [`eprint_line`] does, after all bytes that were printed before.
    ///
    /// The caller shows that no write to standard output has failed.
    pub fn report(&mut self, parts: &[&[u8]]) {
        self.release();
        eprint_line(parts, self.messages());
    }
}
