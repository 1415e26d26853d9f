// SPDX-License-Identifier: MIT
//! The library's `twox_plain::xxhash64`, and what only the programs have in it, written by `rust/erase --programs`.

pub use crate::erased::twox_plain::xxhash64::*;

mod saved;

pub use saved::FormError;
