// SPDX-License-Identifier: MIT
// crates/xxhsum_program/src/progress.rt without its contracts, written by rust/erase --programs: change that file.

//! Progress of long files, on standard error if it is a terminal.

use crate::programs::xxhsum_program::stderr::eprint;
use crate::programs::xxhsum_program::terminal::TimedSink;
use crate::rattle::itoa::Buffer;
use crate::programs::xxh_io::streams::Sink;
use crate::programs::xxh_io::waiting::Waiting;

// Bytes between two progress lines: 64 MiB.
const STEP: u64 = 67108864;

const MIB: u64 = 1048576;

const KIB: u64 = 1024;

// Maximum length of a progress line with its control sequences, in bytes.
const MOST_LINE: usize = 128;

// Clears the line: a carriage return, and ECMA-48's EL, which erases from there on.
const CLEARED: &[u8] = b"\r\x1b[K";

// Switches DECAWM of the VT100 off: text beyond the terminal's width overwrites the last column, so the line stays one
// row.
const ONE_ROW: &[u8] = b"\x1b[?7l";

// Switches DECAWM on again, and returns the cursor to the line's beginning.
const ENDED: &[u8] = b"\x1b[?7h\r";

/// Counts the bytes read from a file. At each 64 MiB it shows the count, the rate and, if the size is known, the time
/// left. If it is off it shows nothing.
pub struct Progress<E> {
    end: E,
    is_on: bool,
    count: u64,
    size: Option<u64>,
    // Time before the first read (ms).
    started: u64,
}

impl<E: Sink> Progress<E> {
    /// Returns the progress of a file of `size` bytes, if known, whose reading starts at time `started` (ms).
    pub fn new(end: E, is_on: bool, size: Option<u64>, started: u64) -> Progress<E> {
        Progress {
            end,
            is_on,
            count: 0,
            size,
            started,
        }
    }

    /// Returns the sink for the progress line.
    pub fn into_end(self) -> E {
        let Progress { end, .. } = self;
        end
    }

    /// Adds `count` bytes read by time `now` (ms). A count of 0 is the end of the file and clears the progress line.
    pub fn show_at(&mut self, count: usize, now: u64) {
        let before = self.count;
        self.count = before.saturating_add(count as u64);
        if self.is_on {
            if count == 0 {
                clear_after(before, &mut self.end);
            } else {
                let millis = now.saturating_sub(self.started);
                show_between(before, self.count, self.size, millis, &mut self.end);
            }
        }
    }
}

impl<E: TimedSink> Progress<E> {
    /// Adds `count` bytes read by the time of the sink's clock. A count of 0 is the end of the file and clears the
    /// progress line.
    pub fn show(&mut self, count: usize) {
        let now = time_of(&self.end, self.is_on);
        self.show_at(count, now);
    }
}

/// Returns the sink's time (ms), or 0 if progress is off.
pub(crate) fn time_of<E: TimedSink>(end: &E, is_on: bool) -> u64 {
    if is_on { end.now() } else { 0 }
}

// Returns the rate of `count` bytes in `millis` ms, in KiB per second.
fn rate_of(count: u64, millis: u64) -> u64 {
    count / KIB * 1000 / millis.max(1)
}

// Shows `count` if a multiple of 64 MiB lies between `before` and it.
fn show_between<E: Sink>(before: u64, count: u64, size: Option<u64>, millis: u64, end: &mut E) {
    if before / STEP < count / STEP {
        let rate = rate_of(count, millis);
        // One write, so that several programs on a terminal don't mix their lines.
        let mut line = Waiting::<MOST_LINE>::new();
        put_rate(count, rate, &mut line);
        put_left(size, count, rate, &mut line);
        line.append(ENDED);
        eprint_once(line, end);
    }
}

// Writes the line, unless a write has failed before.
fn eprint_once<E: Sink>(line: Waiting<MOST_LINE>, end: &mut E) {
    let mut line = line;
    if !end.failed() {
        let _ = line.flush(end);
    }
}

// Appends `count` and the rate to an empty line.
fn put_rate(count: u64, rate: u64, line: &mut Waiting<MOST_LINE>) {
    line.append(CLEARED);
    line.append(ONE_ROW);
    line.append(Buffer::new().format(count / MIB).as_bytes());
    line.append(b" MiB, ");
    line.append(Buffer::new().format(rate / KIB).as_bytes());
    line.append(b" MiB/s");
}

// Appends the seconds left, if the size is known.
fn put_left(size: Option<u64>, count: u64, rate: u64, line: &mut Waiting<MOST_LINE>) {
    let Some(size) = size else {
        return;
    };
    if rate > 0 {
        let seconds = size.saturating_sub(count) / KIB / rate;
        line.append(b", ");
        line.append(Buffer::new().format(seconds).as_bytes());
        line.append(b" s left");
    }
}

// Clears the progress line, if `count` bytes had one.
fn clear_after<E: Sink>(count: u64, end: &mut E) {
    if count >= STEP {
        eprint(CLEARED, end);
    }
}
