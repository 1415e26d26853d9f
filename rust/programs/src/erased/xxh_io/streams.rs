// SPDX-License-Identifier: MIT
// crates/xxh_io/src/streams.rt without its contracts, written by rust/erase --programs: change that file.

//! Streams to read bytes from and write bytes to.

use crate::programs::xxh_io::refusal::Refusal;

/// A read or a write failed. [`Source::failure`] has the reason of a read.
#[derive(Clone, Copy, Debug, PartialEq, Eq)]
pub struct Failed;

/// A stream to read bytes from.
///
/// A source that has failed once stays failed: no call may read from it again.
pub trait Source {
    /// True if a read has failed.
    fn failed(&self) -> bool;

    /// Returns the system's error of the read that failed.
    fn failure(&self) -> Refusal;

    /// Reads bytes into the front of the buffer, and returns their number, or 0 at the end of the input.
    ///
    /// The caller proves that the source has not failed and that the buffer is not empty.
    fn read(&mut self, buf: &mut [u8]) -> Result<usize, Failed>;
}

/// A stream to write bytes to.
///
/// A sink that has failed once stays failed: no call may write to it again.
pub trait Sink {
    /// True if a write has failed.
    fn failed(&self) -> bool;

    /// Writes a front of the bytes, at least one of them, and returns their number.
    ///
    /// The caller proves that the sink has not failed and that there are bytes.
    fn write(&mut self, bytes: &[u8]) -> Result<usize, Failed>;
}
