// SPDX-License-Identifier: MIT
// crates/xxhsum_output/src/lib.rt without its contracts, written by rust/erase --programs: change that file.

//! The streams that `xxhsum` writes to: a sink that buffers lines and writes them whole.

pub mod messages;
pub mod output;
pub mod visible;
pub mod whole_lines;
