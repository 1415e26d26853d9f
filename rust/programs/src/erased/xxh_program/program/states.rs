// SPDX-License-Identifier: MIT
// crates/xxh_program/src/program/states.rt without its contracts, written by rust/erase --programs: change that file.

//! Saved texts of the input's hasher, and digests that continue from one.

use crate::rattle::prelude::String;
use crate::programs::xxh_program::program::hasher_32::{digest_from_32, read_on_32};
use crate::programs::xxh_program::program::hasher_64::{digest_from_64, read_on_64};
use crate::rattle::Global;
use crate::programs::twox_hash::{XxHash32, XxHash64, xxhash32, xxhash64};
use crate::programs::xxh_io::fault::Fault;
use crate::programs::xxh_io::streams::{Sink, Source};
use crate::programs::xxh_io::write::write_all;

// Maximum number of reads that the program makes.
pub(crate) const MAX_READS: u64 = u64::MAX;

// Prints the saved text of XXH32 of the input, and a newline.
pub(crate) fn save_32<R: Source, W: Sink>(
    alloc: Global,
    seed: u32,
    r: &mut R,
    out: &mut W,
) -> Result<(), Fault> {
    let hasher = read_on_32(XxHash32::with_seed(seed), MAX_READS, r)?;
    let text = hasher.to_state().to_json(alloc)?;
    print_line(text, out)
}

// Prints the saved text of XXH64 of the input, and a newline.
pub(crate) fn save_64<R: Source, W: Sink>(
    alloc: Global,
    seed: u64,
    r: &mut R,
    out: &mut W,
) -> Result<(), Fault> {
    let hasher = read_on_64(XxHash64::with_seed(seed), MAX_READS, r)?;
    let text = hasher.to_state().to_json(alloc)?;
    print_line(text, out)
}

// Writes the text and a newline.
fn print_line<W: Sink>(text: String, out: &mut W) -> Result<(), Fault> {
    let mut line = text;
    line.push('\n')?;
    Ok(write_all(line.as_bytes(), out)?)
}

// Continues from a saved text of XXH32, and prints the digest line.
pub(crate) fn resume_32<R: Source, W: Sink>(
    alloc: Global,
    json: &str,
    r: &mut R,
    out: &mut W,
) -> Result<(), Fault> {
    let hasher = restored_32(alloc, json)?;
    Ok(digest_from_32(hasher, MAX_READS, r, out)?)
}

// Continues from a saved text of XXH64, and prints the digest line.
pub(crate) fn resume_64<R: Source, W: Sink>(
    alloc: Global,
    json: &str,
    r: &mut R,
    out: &mut W,
) -> Result<(), Fault> {
    let hasher = restored_64(alloc, json)?;
    Ok(digest_from_64(hasher, MAX_READS, r, out)?)
}

fn restored_32(alloc: Global, json: &str) -> Result<XxHash32, Fault> {
    let state = match xxhash32::SavedState::from_json(alloc, json) {
        Ok(state) => state,
        Err(error) => return Err(form_fault_32(error)),
    };
    match XxHash32::from_state(state) {
        Ok(hasher) => Ok(hasher),
        Err(_) => Err(Fault::BadState),
    }
}

fn restored_64(alloc: Global, json: &str) -> Result<XxHash64, Fault> {
    let state = match xxhash64::SavedState::from_json(alloc, json) {
        Ok(state) => state,
        Err(error) => return Err(form_fault_64(error)),
    };
    match XxHash64::from_state(state) {
        Ok(hasher) => Ok(hasher),
        Err(_) => Err(Fault::BadState),
    }
}

// Returns the error of an invalid saved text of XXH32.
fn form_fault_32(error: xxhash32::FormError) -> Fault {
    match error {
        xxhash32::FormError::Text => Fault::BadState,
        xxhash32::FormError::Memory => Fault::OutOfMemory,
    }
}

// Returns the error of an invalid saved text of XXH64.
fn form_fault_64(error: xxhash64::FormError) -> Fault {
    match error {
        xxhash64::FormError::Text => Fault::BadState,
        xxhash64::FormError::Memory => Fault::OutOfMemory,
    }
}
