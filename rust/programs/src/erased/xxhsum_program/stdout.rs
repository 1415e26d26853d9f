// SPDX-License-Identifier: MIT
// crates/xxhsum_program/src/stdout.rt without its contracts, written by rust/erase --programs: change that file.

//! Lines on standard output. A lost line is an error.

use crate::rattle::prelude::Vec;
use crate::programs::xxhsum_program::stop::Stop;
use crate::rattle::{AllocError, Global};
use crate::programs::xxh_io::streams::Sink;
use crate::programs::xxh_io::write::write_all;
use crate::programs::xxhsum_line::escapes::put_line;
use crate::programs::xxhsum_output::output::Output;

// Appends the parts to the text.
fn put_parts(text: &mut Vec<u8>, parts: &[&[u8]]) -> Result<(), AllocError> {
    match parts.split_first() {
        Some((part, rest)) => {
            text.extend_from_slice(part)?;
            put_parts(text, rest)
        }
        None => Ok(()),
    }
}

// Returns the parts as one line. Names in them are escaped.
pub(crate) fn line_of(alloc: Global, parts: &[&[u8]]) -> Result<Vec<u8>, AllocError> {
    let mut text = Vec::new(alloc);
    put_parts(&mut text, parts)?;
    let mut line = Vec::new(alloc);
    put_line(&mut line, &text)?;
    Ok(line)
}

// Writes the parts as one line.
pub(crate) fn print_line<W: Sink>(alloc: Global, parts: &[&[u8]], out: &mut W) -> Result<(), Stop> {
    let line = line_of(alloc, parts)?;
    print(&line, out)
}

/// Writes the bytes.
///
/// # Errors
///
/// [`Stop::WriteFailed`] if a write fails.
pub fn print<W: Sink>(bytes: &[u8], out: &mut W) -> Result<(), Stop> {
    match write_all(bytes, out) {
        Ok(()) => Ok(()),
        Err(_) => Err(Stop::WriteFailed),
    }
}

/// Writes the bytes that the output holds at the end of a run. If that fails, the result is [`Stop::WriteFailed`],
/// unless the run stopped before.
pub fn finish<W: Output>(done: Result<bool, Stop>, out: &mut W) -> Result<bool, Stop> {
    out.release();
    match done {
        Ok(_) if out.has_lost() => Err(Stop::WriteFailed),
        _ => done,
    }
}
