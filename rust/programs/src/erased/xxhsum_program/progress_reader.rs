// SPDX-License-Identifier: MIT
// crates/xxhsum_program/src/progress_reader.rt without its contracts, written by rust/erase --programs: change that file.

//! Sources whose reads are shown as progress. They return the same bytes as without progress.

use crate::programs::xxhsum_program::process::{Interactive, shows_progress};
use crate::programs::xxhsum_program::progress::{Progress, time_of};
use crate::programs::xxhsum_program::terminal::TimedSink;
use crate::programs::xxh_io::digest_error::DigestError;
use crate::programs::xxh_io::kind::Kind;
use crate::programs::xxh_io::refusal::Refusal;
use crate::programs::xxh_io::streams::{Failed, Source};
use crate::programs::xxh_program::program::value_of_source;
use crate::programs::xxhsum_fs::store::Store;
use crate::programs::xxhsum_options::options::Options;

// The maximum number of reads of a file.
const MAX_READS: u64 = u64::MAX;

/// A source whose reads are shown as progress. It returns the same bytes as its own source.
pub struct ProgressReader<R, T> {
    source: R,
    progress: Progress<T>,
}

impl<R: Source, T: TimedSink> ProgressReader<R, T> {
    /// Returns this source, with this progress.
    pub fn new(source: R, progress: Progress<T>) -> ProgressReader<R, T> {
        ProgressReader { source, progress }
    }

    /// Reads the source to its end and returns the hash of the bytes. Each read is offered the whole of `buf`.
    ///
    /// The caller shows that the source has not failed.
    ///
    /// # Errors
    ///
    /// [`DigestError::ReadFailed`] if a read fails, and [`DigestError::TooLong`] if 2^64 - 1 reads don't reach the end.
    pub(crate) fn value(&mut self, kind: Kind, buf: &mut [u8]) -> Result<u128, DigestError> {
        value_of_source(kind, 0, MAX_READS, self, buf)
    }
}

impl<R: Source, T: TimedSink> Source for ProgressReader<R, T> {
    fn failed(&self) -> bool {
        self.source.failed()
    }

    fn failure(&self) -> Refusal {
        self.source.failure()
    }

    fn read(&mut self, buf: &mut [u8]) -> Result<usize, Failed> {
        let found = self.source.read(buf);
        match found {
            Ok(count) => self.progress.show(count),
            Err(Failed) => self.progress.show(0),
        }
        found
    }
}

/// A display of reading progress, or none.
#[derive(Clone, Copy)]
pub struct ProgressDisplay<T> {
    terminal: T,
    is_on: bool,
}

impl<T: TimedSink> ProgressDisplay<T> {
    /// Returns a display on `terminal`. It is on if [`shows_progress`] returns true.
    pub fn new(terminal: T, interactive: Interactive, options: Options) -> ProgressDisplay<T> {
        ProgressDisplay {
            terminal,
            is_on: shows_progress(interactive, options),
        }
    }

    /// Returns this source, with its progress. Its size is not known.
    pub fn watch<R: Source>(&self, source: R) -> ProgressReader<R, T> {
        let started = time_of(&self.terminal, self.is_on);
        ProgressReader::new(
            source,
            Progress::new(self.terminal, self.is_on, None, started),
        )
    }

    /// Opens the file of this name, with its progress. Its expected size is the store's.
    ///
    /// # Errors
    ///
    /// The store's reason if it doesn't open the file.
    pub fn open<S: Store>(
        &self,
        store: &S,
        name: &[u8],
    ) -> Result<ProgressReader<S::File, T>, Refusal> {
        match store.open(name) {
            Ok(file) => { Ok(ProgressReader::new(file, self.progress_of(store, name))) }
            Err(refusal) => Err(refusal),
        }
    }

    // Returns the progress of the file of this name.
    fn progress_of<S: Store>(&self, store: &S, name: &[u8]) -> Progress<T> {
        let size = if self.is_on { store.size(name) } else { None };
        let started = time_of(&self.terminal, self.is_on);
        Progress::new(self.terminal, self.is_on, size, started)
    }
}
