// SPDX-License-Identifier: MIT
// crates/xxhsum_output/src/whole_lines.rt without its contracts, written by rust/erase --programs: change that file.

//! A sink that buffers lines and writes them whole.

use crate::programs::xxhsum_output::output::Output;
use crate::programs::xxh_io::streams::{Failed, Sink};
use crate::programs::xxh_io::waiting::Waiting;

/// Maximum number of buffered bytes.
pub const MOST_WAITING: usize = 4096;

/// A line buffer in front of another sink. It passes many lines per write, and never splits one write over two. Lines
/// are buffered up to 4,096 bytes together; a longer line is passed on by itself.
pub struct WholeLines<W> {
    inner: W,
    waiting: Waiting<MOST_WAITING>,
    // Maximum number of buffered bytes: 0 if each line is passed on at once.
    capacity: usize,
    has_failed: bool,
}

impl<W: Sink> WholeLines<W> {
    /// Creates an empty buffer in front of this sink. If `gathers` is false, each line is passed on at once.
    pub fn new(inner: W, gathers: bool) -> WholeLines<W> {
        WholeLines {
            inner,
            waiting: Waiting::new(),
            capacity: if gathers { MOST_WAITING } else { 0 },
            has_failed: false,
        }
    }

    /// Returns the inner sink. Buffered lines are lost.
    pub fn into_inner(self) -> W {
        let WholeLines { inner, .. } = self;
        inner
    }

    // Appends a line to the buffered ones. If it doesn't fit, those are written first, and then it is buffered, or
    // passed on by itself.
    fn take_line(&mut self, line: &[u8]) -> Result<usize, Failed> {
        if self.inner.failed() {
            return Err(Failed);
        }
        if line.len() <= self.capacity.saturating_sub(self.waiting.len()) {
            self.waiting.append(line);
            return Ok(line.len());
        }
        self.write_waiting()?;
        if line.len() > self.capacity {
            return self.inner.write(line);
        }
        self.waiting.append(line);
        Ok(line.len())
    }

    // Writes the buffered lines.
    fn write_waiting(&mut self) -> Result<(), Failed> {
        match self.waiting.flush(&mut self.inner) {
            Ok(()) => Ok(()),
            Err(_) => Err(Failed),
        }
    }

    /// Lemma (no code), the laws of such a sink: if nothing was buffered, the inner sink took what this one took,
    /// except the buffered bytes; or a write there failed, and the inner sink took a prefix of them.
    pub fn laws() {}
}

impl<W: Sink> Sink for WholeLines<W> {
    fn failed(&self) -> bool {
        self.has_failed
    }

    fn write(&mut self, bytes: &[u8]) -> Result<usize, Failed> {
        let taken = self.take_line(bytes);
        self.has_failed = taken.is_err();
        taken
    }
}

impl<W: Sink> Output for WholeLines<W> {
    fn has_lost(&self) -> bool {
        self.inner.failed()
    }

    fn release(&mut self) {
        if self.inner.failed() {
            return;
        }
        // What could not be written is lost, and `has_lost` is then true.
        let _ = self.write_waiting();
    }
}
