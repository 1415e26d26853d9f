// SPDX-License-Identifier: MIT
// crates/xxh_io/src/from_read.rt without its contracts, written by rust/erase --programs: change that file.

//! Standard readers as sources.

use crate::programs::xxh_io::refusal::Refusal;
use crate::programs::xxh_io::streams::{Failed, Source};
use crate::programs::xxh_io::words::words_of;
use crate::rattle::io::Read;

/// A standard reader as a source. Every error of a read is a failure, including an interruption.
pub struct FromRead<R> {
    inner: R,
    // The error of the read that failed.
    failure: Option<Refusal>,
}

impl<R: Read> FromRead<R> {
    /// Creates a source that has not failed.
    pub fn new(inner: R) -> FromRead<R> {
        FromRead {
            inner,
            failure: None,
        }
    }

    /// Returns the reader.
    pub fn into_inner(self) -> R {
        let FromRead { inner, failure: _ } = self;
        inner
    }
}

impl<R: Read> Source for FromRead<R> {
    fn failed(&self) -> bool {
        self.failure.is_some()
    }

    fn failure(&self) -> Refusal {
        match self.failure {
            Some(failure) => failure,
            None => Refusal::new(0, b""),
        }
    }

    fn read(&mut self, buf: &mut [u8]) -> Result<usize, Failed> {
        match self.inner.read(buf) {
            Ok(count) => Ok(count),
            Err(error) => {
                self.failure = Some(words_of(error));
                Err(Failed)
            }
        }
    }
}

/// Lemma (no code): if a reader exposes its remaining bytes, then the chunks read plus the bytes still remaining are
/// the bytes that remained before.
pub fn reader_pieces<R: Read>() {}
