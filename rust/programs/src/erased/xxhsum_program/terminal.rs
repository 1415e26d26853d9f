// SPDX-License-Identifier: MIT
// crates/xxhsum_program/src/terminal.rt without its contracts, written by rust/erase --programs: change that file.

//! The terminal of the progress line, and its clock.

use crate::rattle::io::Write;
use crate::rattle::rt::Clock;
use crate::programs::xxh_io::streams::{Failed, Sink};

/// A sink for progress, with a clock.
pub trait TimedSink: Sink + Copy {
    /// Returns the milliseconds since some start, or 0 if the clock can't be read. No clause says which.
    fn now(&self) -> u64;
}

/// A writer, as a terminal is, with the clock of a process.
#[derive(Clone, Copy)]
pub struct Terminal<'a, W, P> {
    writer: W,
    has_failed: bool,
    process: &'a P,
}

impl<'a, W: Write + Copy, P: Clock> Terminal<'a, W, P> {
    /// Returns a terminal on which nothing was shown yet.
    pub fn new(writer: W, process: &'a P) -> Terminal<'a, W, P> {
        Terminal {
            writer,
            has_failed: false,
            process,
        }
    }
}

impl<W: Write + Copy, P: Clock + Copy> TimedSink for Terminal<'_, W, P> {
    fn now(&self) -> u64 {
        match self.process.monotonic() {
            Ok(time) => u64::try_from(time.as_millis()).unwrap_or(u64::MAX),
            Err(_) => 0,
        }
    }
}

impl<W: Write + Copy, P: Clock> Sink for Terminal<'_, W, P> {
    fn failed(&self) -> bool {
        self.has_failed
    }

    fn write(&mut self, bytes: &[u8]) -> Result<usize, Failed> {
        match self.writer.write(bytes) {
            Ok(count) if count > 0 => Ok(count),
            _ => {
                self.has_failed = true;
                Err(Failed)
            }
        }
    }
}
