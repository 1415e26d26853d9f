// SPDX-License-Identifier: MIT
// crates/xxhsum_options/src/lib.rt without its contracts, written by rust/erase --programs: change that file.

//! Parses the arguments of `xxhsum`.

pub mod exclude;
mod letters;
pub mod name;
mod number;
pub mod options;
pub mod table;
