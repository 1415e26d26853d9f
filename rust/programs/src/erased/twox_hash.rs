// SPDX-License-Identifier: MIT
//! The library's `twox_hash`, and what only the programs have in it, written by `rust/erase --programs`.

pub use crate::erased::twox_hash::*;

pub use super::twox_plain::{xxhash32, xxhash64};
