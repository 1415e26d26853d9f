// SPDX-License-Identifier: MIT
// crates/twox_plain/src/saved_text.rt without its contracts, written by rust/erase --programs: change that file.

//! Code shared by the saved texts of both hashes: numbers and bytes as members of a JSON object, and that object.

use crate::rattle::prelude::Vec;
use crate::rattle::serde_json::{Value, json};
use crate::rattle::{AllocError, Global};

// Returns the whole number, if it is below the limit.
fn whole_number_below(value: &Value, limit: u64) -> Option<u64> {
    let number = value.as_u64()?;
    if number < limit { Some(number) } else { None }
}

// Returns the whole number, if it fits.
fn whole_number(value: &Value) -> Option<u64> {
    value.as_u64()
}

/// Returns the member of this name, a whole number below 2^32.
pub(crate) fn u32_member(value: &Value, name: &str) -> Option<u32> {
    let number = whole_number_below(value.get(name)?, 0x1_0000_0000)?;
    Some(number as u32)
}

/// Returns the member of this name, a whole number below 2^64.
pub(crate) fn u64_member(value: &Value, name: &str) -> Option<u64> {
    whole_number(value.get(name)?)
}

/// Returns the member of this name, a length: a whole number below 2^64 that fits the target's `usize`.
pub(crate) fn usize_member(value: &Value, name: &str) -> Option<usize> {
    usize::try_from(u64_member(value, name)?).ok()
}

/// Parses an array of exactly N integers from 0 to 255.
pub(crate) fn byte_array<const N: usize>(value: &Value) -> Option<[u8; N]> {
    let list = value.as_array()?;
    if list.len() != N {
        return None;
    }
    let mut bytes = [0u8; N];
    for i in 0..N {
        bytes[i] = whole_number_below(&list[i], 256)? as u8;
    }
    Some(bytes)
}

fn byte_values(alloc: Global, bytes: &[u8]) -> Result<Vec<Value>, AllocError> {
    let mut list = Vec::new(alloc);
    for byte in bytes {
        list.push(Value::from(*byte))?;
    }
    Ok(list)
}

/// Returns the bytes as an array of numbers.
pub(crate) fn byte_array_value(alloc: Global, bytes: &[u8]) -> Result<Value, AllocError> {
    Ok(Value::Array(byte_values(alloc, bytes)?))
}

/// Returns the object of four accumulators.
pub(crate) fn core_value(
    alloc: Global,
    v1: u64,
    v2: u64,
    v3: u64,
    v4: u64,
) -> Result<Value, AllocError> {
    json!(in alloc; {"v1": v1, "v2": v2, "v3": v3, "v4": v4})
}

/// Returns the object of a record's members, from the values of the buffer and the core.
pub(crate) fn record_value(
    alloc: Global,
    buffer: Value,
    core: Value,
    usage: usize,
    seed: u64,
    total_len: u64,
) -> Result<Value, AllocError> {
    json!(in alloc; {"buffer": buffer, "buffer_usage": usage, "core": core, "seed": seed, "total_len": total_len})
}
