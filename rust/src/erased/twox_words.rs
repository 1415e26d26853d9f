// SPDX-License-Identifier: MIT
// crates/twox_words/src/lib.rt without its contracts, written by rust/erase: change that file.

//! Little-endian words, which every hash of this repository reads, and copies of a few bytes.
//!
//! `twox_hash` re-exports `words`. `barriers` and `copies` exist only for speed.

pub use crate::rattle::barriers;
pub mod copies;
pub mod words;
