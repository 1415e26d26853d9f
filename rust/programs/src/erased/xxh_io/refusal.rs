// SPDX-License-Identifier: MIT
// crates/xxh_io/src/refusal.rt without its contracts, written by rust/erase --programs: change that file.

//! Errors of the system.

// Capacity for the system's message, which is shorter.
const TEXT_ROOM: usize = 256;

/// `ENOENT`, the system's error number for a missing file.
pub const MISSING: i32 = 2;

/// An error of opening or reading a file: the system's error number and message.
#[derive(Clone, Copy, Debug, PartialEq, Eq)]
pub struct Refusal {
    code: i32,
    text: [u8; TEXT_ROOM],
    len: usize,
}

impl Refusal {
    /// Creates the error of this error number, for example 2, and the first 256 bytes of this message.
    pub fn new(code: i32, words: &[u8]) -> Refusal {
        let len = words.len().min(TEXT_ROOM);
        let mut text = [0; TEXT_ROOM];
        text[..len].copy_from_slice(&words[..len]);
        Refusal { code, text, len }
    }

    /// True if the file is missing: the number is `ENOENT`. A file that exists and can't be opened has another.
    pub fn is_missing(&self) -> bool {
        self.code == MISSING
    }

    /// Returns the system's message, for example `No such file or directory`.
    pub fn text(&self) -> &[u8] {
        &self.text[..self.len]
    }
}
