// SPDX-License-Identifier: MIT
// crates/xxhsum_fs/src/lib.rt without its contracts, written by rust/erase --programs: change that file.

//! Files and directories by names that are bytes: those that `xxhsum` opens, from the system or from a table in memory.

pub mod below;
pub mod calls;
pub mod entries;
pub mod folders;
pub mod memory;
pub mod store;
pub mod system;
pub mod uninterrupted;
