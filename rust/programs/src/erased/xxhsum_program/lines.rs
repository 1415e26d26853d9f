// SPDX-License-Identifier: MIT
// crates/xxhsum_program/src/lines.rt without its contracts, written by rust/erase --programs: change that file.

//! Splits a list into lines.

use crate::programs::xxhsum_program::progress_reader::ProgressReader;
use crate::programs::xxhsum_program::terminal::TimedSink;
use crate::programs::xxh_io::refusal::Refusal;
use crate::programs::xxh_io::streams::{Failed, Source};

const BUFFER: usize = 65536;

// Maximum length of a line in bytes, without its line feed. A longer line is skipped.
const LONGEST_LINE: usize = 32767;

/// The next item of a list.
#[derive(Clone, Copy, Debug, PartialEq, Eq)]
pub enum Next {
    /// A line. It may be too long.
    Line,
    /// A line without an end within 2^64 - 1 reads. The list ends there.
    Endless,
    End,
    /// A read failed.
    Failed,
}

/// Reads the lines of a source, one after another.
pub struct Lines<R, T> {
    source: ProgressReader<R, T>,
    buf: [u8; BUFFER],
    // `buf[start..end]` is buffered.
    start: usize,
    end: usize,
    // `buf[line_start..line_end]` is the current line, without its line feed.
    line_start: usize,
    line_end: usize,
    // True if the current line has more than LONGEST_LINE bytes.
    is_long: bool,
    has_ended: bool,
}

impl<R: Source , T: TimedSink> Lines<R, T> {
    /// Returns the lines of a source that has not been read yet.
    pub fn new(source: ProgressReader<R, T>) -> Lines<R, T> {
        Lines {
            source,
            buf: [0; BUFFER],
            start: 0,
            end: 0,
            line_start: 0,
            line_end: 0,
            is_long: false,
            has_ended: false,
        }
    }

    // Moves the buffered bytes to the front, and reads once more.
    fn refill(&mut self) -> Result<(), Failed> {
        let len = self.end - self.start;
        self.buf.copy_within(self.start..self.end, 0);
        self.start = 0;
        self.end = len;
        if self.source.failed() {
            return Err(Failed);
        }
        let count = self.source.read(&mut self.buf[len..])?;
        self.end = len + count;
        self.has_ended = count == 0;
        Ok(())
    }

    // Returns the number of buffered bytes before the first line feed.
    fn before_line_feed(&self) -> Option<usize> {
        crate::rattle::memchr::memchr(b'\n', &self.buf[self.start..self.end])
    }

    // Reads until a line feed is buffered, too many bytes for a line are, or the source ends. Returns the number of
    // bytes before the line feed.
    fn gather(&mut self) -> Result<Option<usize>, Failed> {
        loop {
            let found = self.before_line_feed();
            if found.is_some() || self.has_ended || self.end - self.start > LONGEST_LINE {
                return Ok(found);
            }
            self.refill()?;
        }
    }

    // Consumes `taken` buffered bytes. The first `len` are the line, unless it is too long.
    fn take(&mut self, len: usize, taken: usize, is_long: bool) {
        self.line_start = self.start;
        self.line_end = self.start + len;
        self.start += taken;
        self.is_long = is_long;
    }

    // Skips a line with more than LONGEST_LINE buffered bytes, up to its line feed or the end.
    fn pass_over(&mut self) -> Next {
        for turn in 0..u64::MAX {
            let waiting = self.end - self.start;
            self.take(0, waiting, true);
            if self.has_ended {
                return Next::Line;
            }
            match self.refill() {
                Ok(()) => {}
                Err(Failed) => return Next::Failed,
            }
            if let Some(len) = self.before_line_feed() {
                self.take(0, len + 1, true);
                return Next::Line;
            }
        }
        Next::Endless
    }

    /// Advances to the next line.
    pub fn next(&mut self) -> Next {
        match self.gather() {
            Err(Failed) => Next::Failed,
            Ok(Some(len)) if len > LONGEST_LINE => {
                self.take(0, len + 1, true);
                Next::Line
            }
            Ok(Some(len)) => {
                self.take(len, len + 1, false);
                Next::Line
            }
            Ok(None) => match self.end - self.start {
                0 => Next::End,
                waiting if waiting > LONGEST_LINE => self.pass_over(),
                waiting => {
                    self.take(waiting, waiting, false);
                    Next::Line
                }
            },
        }
    }

    /// Returns the system's error of the read that failed.
    pub fn failure(&self) -> Refusal {
        self.source.failure()
    }

    /// Returns the current line without its line feed, or `None` if it is longer than 32,767 bytes.
    pub fn line(&self) -> Option<&[u8]> {
        if self.is_long {
            return None;
        }
        Some(&self.buf[self.line_start..self.line_end])
    }
}
