// SPDX-License-Identifier: MIT
// crates/xxhsum_fs/src/uninterrupted.rt without its contracts, written by rust/erase --programs: change that file.

//! Reads that signals interrupt.

use crate::programs::xxhsum_fs::calls::ReadCall;
use crate::rattle::io;
use crate::rattle::io::ErrorKind;
use crate::programs::xxh_io::refusal::Refusal;
use crate::programs::xxh_io::streams::{Failed, Source};
use crate::programs::xxh_io::words::words_of;

/// A source that repeats a call which a signal interrupted.
pub struct Uninterrupted<R> {
    inner: R,
    // The error of the read that failed.
    failure: Option<Refusal>,
}

impl<R: ReadCall> Uninterrupted<R> {
    /// Creates a source that has not failed. Nothing was read yet from the reader.
    pub fn new(inner: R) -> Uninterrupted<R> {
        Uninterrupted {
            inner,
            failure: None,
        }
    }
}

impl<R: ReadCall> Source for Uninterrupted<R> {
    fn failed(&self) -> bool {
        self.failure.is_some()
    }

    fn failure(&self) -> Refusal {
        match self.failure {
            Some(failure) => failure,
            None => Refusal::new(0, b""),
        }
    }

    fn read(&mut self, buf: &mut [u8]) -> Result<usize, Failed> {
        match read_at_last(&mut self.inner, buf) {
            Ok(count) => Ok(count),
            Err(error) => {
                self.failure = Some(words_of(error));
                Err(Failed)
            }
        }
    }
}

/// Reads bytes into the front of the buffer, and returns their number, or 0 at the end. Repeats a call which a signal
/// interrupted.
///
/// # Errors
///
/// The error of the first call that fails otherwise.
pub fn read_at_last<R: ReadCall>(reader: &mut R, buf: &mut [u8]) -> io::Result<usize> {
    for turn in 0..u64::MAX {
        match reader.read_once(buf) {
            Ok(count) => return Ok(count),
            Err(error) => {
                if error.kind() != ErrorKind::Interrupted {
                    return Err(error);
                }
            }
        }
    }
    Err(io::Error::from(ErrorKind::TimedOut))
}
