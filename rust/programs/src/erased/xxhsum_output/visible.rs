// SPDX-License-Identifier: MIT
// crates/xxhsum_output/src/visible.rt without its contracts, written by rust/erase --programs: change that file.

//! A sink in front of a terminal, which makes control characters visible.

use crate::programs::xxh_io::digest_error::DigestError;
use crate::programs::xxh_io::streams::{Failed, Sink};
use crate::programs::xxh_io::write::write_all;

// In UTF-8 a control character of two bytes is this one and one from 128 to 159.
const BEFORE_CONTROL: u8 = 194;

/// A sink in front of a terminal. In a text with a control character, it replaces each byte that is neither printable
/// ASCII nor a newline nor NUL by `\xHH`. It passes on any other text unchanged, and every text if it is off.
pub struct Visible<W> {
    inner: W,
    is_on: bool,
}

impl<W: Sink> Visible<W> {
    /// Wraps this sink. Control characters are made visible if `is_on`.
    pub fn new(inner: W, is_on: bool) -> Visible<W> {
        Visible { inner, is_on }
    }

    /// Lemma (no code), the laws of such a sink: the inner sink took what this one took, as it is displayed: unchanged
    /// if it is off, and without control characters if it is on.
    pub fn laws() {}
}

impl<W: Sink> Sink for Visible<W> {
    fn failed(&self) -> bool {
        self.inner.failed()
    }

    fn write(&mut self, bytes: &[u8]) -> Result<usize, Failed> {
        match write_visible(bytes, self.is_on, &mut self.inner) {
            Ok(()) => Ok(bytes.len()),
            Err(_) => Err(Failed),
        }
    }
}

// Writes the bytes as they are displayed.
fn write_visible<W: Sink>(bytes: &[u8], is_on: bool, w: &mut W) -> Result<(), DigestError> {
    if is_on && !is_clean(bytes) {
        return write_shown(bytes, w);
    }
    write_all(bytes, w)
}

// True if no byte belongs to a control character.
fn is_clean(bytes: &[u8]) -> bool {
    let mut before = 0;
    for byte in bytes {
        if !is_calm(before, *byte) {
            return false;
        }
        before = *byte;
    }
    true
}

// True if a byte after this one belongs to no control character.
fn is_calm(before: u8, byte: u8) -> bool {
    if byte < 128 {
        return is_plain(byte);
    }
    byte > 159 || (before > 127 && before != BEFORE_CONTROL)
}

// True if a byte is printable ASCII, a newline or NUL.
fn is_plain(byte: u8) -> bool {
    byte == b'\n' || byte == 0 || (31 < byte && byte < 127)
}

// Writes each byte as it is displayed.
fn write_shown<W: Sink>(bytes: &[u8], w: &mut W) -> Result<(), DigestError> {
    for byte in bytes {
        match write_byte(*byte, w) {
            Ok(()) => {}
            Err(error) => return Err(error),
        }
    }
    Ok(())
}

// Writes a byte as it is displayed.
fn write_byte<W: Sink>(byte: u8, w: &mut W) -> Result<(), DigestError> {
    if is_plain(byte) {
        return write_all(&[byte], w);
    }
    write_all(&in_hex(byte), w)
}

// Returns a backslash, an x and two digits.
fn in_hex(byte: u8) -> [u8; 4] {
    [b'\\', b'x', digit(byte / 16), digit(byte % 16)]
}

// Returns the lower-case digit of a number below 16.
fn digit(n: u8) -> u8 {
    if n < 10 { b'0' + n } else { b'a' - 10 + n }
}
