// SPDX-License-Identifier: MIT
// crates/twox_plain/src/lib.rt without its contracts, written by rust/erase: change that file.

//! XXH32 and XXH64.

pub mod xxhash32;
pub mod xxhash64;

pub use crate::erased::twox_words::words;
