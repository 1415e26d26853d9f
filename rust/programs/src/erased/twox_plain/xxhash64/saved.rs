// SPDX-License-Identifier: MIT
// crates/twox_plain/src/xxhash64/saved.rt without its contracts, written by rust/erase --programs: change that file.

//! The saved text of a record.

use crate::rattle::prelude::String;
use crate::programs::twox_plain::saved_text::{
    byte_array, byte_array_value, core_value, record_value, u64_member, usize_member,
};
use crate::programs::twox_plain::xxhash64::{Core, SavedState};
use crate::rattle::serde_json::Value;
use crate::rattle::{AllocError, Global};
use std::error::Error;
use std::fmt;

/// The error for a text without a record.
#[derive(Clone, Copy, Debug, PartialEq, Eq)]
pub enum FormError {
    /// The text is not one of a saved state.
    Text,
    /// Out of memory while reading it.
    Memory,
}

impl fmt::Display for FormError {
    fn fmt(&self, f: &mut fmt::Formatter<'_>) -> fmt::Result {
        f.write_str(match self {
            FormError::Text => "The text is not a saved state",
            FormError::Memory => "out of memory",
        })
    }
}

impl Error for FormError {}

fn core_of_value(value: &Value) -> Option<Core> {
    let v1 = u64_member(value, "v1")?;
    let v2 = u64_member(value, "v2")?;
    let v3 = u64_member(value, "v3")?;
    let v4 = u64_member(value, "v4")?;
    Some(Core { v1, v2, v3, v4 })
}

fn record_of_value(value: &Value) -> Option<SavedState> {
    let buffer = byte_array(value.get("buffer")?)?;
    let buffer_usage = usize_member(value, "buffer_usage")?;
    let core = core_of_value(value.get("core")?)?;
    let seed = u64_member(value, "seed")?;
    let total_len = u64_member(value, "total_len")?;
    Some(SavedState {
        total_len,
        seed,
        core,
        buffer,
        buffer_usage,
    })
}

impl SavedState {
    /// Writes the saved text: the compact JSON of an object with the members `buffer` (an array of numbers),
    /// `buffer_usage`, `core` (an object of `v1` to `v4`), `seed` and `total_len`, in this order.
    ///
    /// # Errors
    ///
    /// `AllocError` if out of memory.
    pub fn to_json(&self, alloc: Global) -> Result<String, AllocError> {
        let buffer = byte_array_value(alloc, &self.buffer)?;
        let Core { v1, v2, v3, v4 } = self.core;
        let core = core_value(alloc, v1, v2, v3, v4)?;
        let (usage, seed, total_len) = (self.buffer_usage, self.seed, self.total_len);
        record_value(alloc, buffer, core, usage, seed, total_len)?.to_string(alloc)
    }

    /// Reads the record of a saved text: an object with the members that [`SavedState::to_json`] writes, in any order
    /// and with any white space, each number whole and in its type's range, and exactly 32 of them in the buffer. Other
    /// members are ignored.
    ///
    /// # Errors
    ///
    /// - [`FormError::Text`] if `serde_json` reads no such object.
    /// - [`FormError::Memory`] if out of memory, possibly for a text that is invalid.
    pub fn from_json(alloc: Global, text: &str) -> Result<SavedState, FormError> {
        match Value::from_str(alloc, text) {
            Ok(value) => record_of_value(&value).ok_or(FormError::Text),
            Err(error) => Err(if error.is_memory() {
                FormError::Memory
            } else {
                FormError::Text
            }),
        }
    }
}
