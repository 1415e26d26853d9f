// SPDX-License-Identifier: MIT
// crates/twox_core/src/lib.rt without its contracts, written by rust/erase: change that file.

//! XXH3: code shared by both widths, and the values of each.
//!
//! `twox_hash` re-exports `xxhash3` and has its own calls of the two widths. `short_pieces` is for exports.

pub mod short_pieces;
pub mod width_128;
pub mod width_64;
pub mod xxhash3;
