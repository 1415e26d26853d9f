// SPDX-License-Identifier: MIT
// crates/xxh_io/src/words.rt without its contracts, written by rust/erase --programs: change that file.

//! The system's message for an error.

use crate::programs::xxh_io::refusal::Refusal;
use std::fmt::Write;
use crate::rattle::io;
use std::fmt;

// Capacity for the message, which is shorter.
const ROOM: usize = 256;

// What std appends to the system's message.
const SUFFIX: &[u8] = b" (os error ";

// A text in a buffer of fixed capacity. The rest is dropped.
struct Words {
    text: [u8; ROOM],
    len: usize,
}

impl Write for Words {
    fn write_str(&mut self, text: &str) -> fmt::Result {
        let bytes = text.as_bytes();
        let count = bytes.len().min(ROOM - self.len);
        self.text[self.len..self.len + count].copy_from_slice(&bytes[..count]);
        self.len += count;
        Ok(())
    }
}

/// Returns the error with the system's error number and message; the number is 0 if the error is not the system's.
pub fn words_of(error: io::Error) -> Refusal {
    let code = error.raw_os_error().unwrap_or(0);
    let mut words = Words {
        text: [0; ROOM],
        len: 0,
    };
    let _ = write!(words, "{}", io::Shown(&error));
    let text = &words.text[..words.len];
    match crate::rattle::memchr::memmem::find(text, SUFFIX) {
        Some(len) => Refusal::new(code, &text[..len]),
        None => Refusal::new(code, text),
    }
}
