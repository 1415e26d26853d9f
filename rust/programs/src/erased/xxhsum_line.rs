// SPDX-License-Identifier: MIT
// crates/xxhsum_line/src/lib.rt without its contracts, written by rust/erase --programs: change that file.

//! One line of a checksum list, as `xxhsum` prints and parses it: a file's name, its digest, and the algorithm.

pub mod digits;
pub mod entry;
pub mod escapes;
pub mod laws;
pub mod parts;
pub mod printed;
pub mod tags;
