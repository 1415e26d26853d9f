// SPDX-License-Identifier: MIT
//! The library's `twox_plain`, and what only the programs have in it, written by `rust/erase --programs`.

pub use crate::erased::twox_plain::*;

mod saved_text;
pub mod xxhash32;
pub mod xxhash64;
