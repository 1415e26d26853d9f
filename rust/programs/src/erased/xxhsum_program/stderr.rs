// SPDX-License-Identifier: MIT
// crates/xxhsum_program/src/stderr.rt without its contracts, written by rust/erase --programs: change that file.

//! Messages on standard error. A failed write of a message is ignored.

use crate::programs::xxh_io::streams::Sink;
use crate::programs::xxh_io::write::write_all;
use crate::programs::xxhsum_line::escapes::{escape, needs_escape};

/// Writes the bytes, unless a write has failed before.
pub fn eprint<E: Sink>(bytes: &[u8], err: &mut E) {
    if !err.failed() {
        // There is no other stream for a message that standard error refuses.
        let _ = write_all(bytes, err);
    }
}

/// Writes the parts as one line, with a line feed. Bytes are escaped as in names of lists, with a backslash at the
/// front if one is.
pub fn eprint_line<E: Sink>(parts: &[&[u8]], err: &mut E) {
    eprint_mark(parts, err);
    eprint_escaped_parts(parts, err);
    eprint(b"\n", err);
}

// Writes a backslash if one of the parts has a byte that is escaped.
fn eprint_mark<E: Sink>(parts: &[&[u8]], err: &mut E) {
    if need_escape(parts) {
        eprint(b"\\", err);
    }
}

// True if one of the parts has a byte that is escaped.
fn need_escape(parts: &[&[u8]]) -> bool {
    match parts.split_first() {
        Some((part, rest)) => needs_escape(part) || need_escape(rest),
        None => false,
    }
}

fn eprint_escaped_parts<E: Sink>(parts: &[&[u8]], err: &mut E) {
    if let Some((part, rest)) = parts.split_first() {
        eprint_escaped(part, err);
        eprint_escaped_parts(rest, err);
    }
}

// Writes a text, escaped byte by byte if one of its bytes needs that.
fn eprint_escaped<E: Sink>(text: &[u8], err: &mut E) {
    if !needs_escape(text) {
        eprint(text, err);
        return;
    }
    for byte in text {
        eprint(escape(byte), err);
    }
}

/// Writes the parts, one after another.
pub fn eprint_parts<E: Sink>(parts: &[&[u8]], err: &mut E) {
    if let Some((part, rest)) = parts.split_first() {
        eprint(part, err);
        eprint_parts(rest, err);
    }
}
