// SPDX-License-Identifier: MIT
//! The proved crates of the programs without their contracts, written by `rust/erase --programs`.

pub mod twox_hash;
pub mod twox_plain;
pub mod xxh_io;
pub mod xxh_program;
pub mod xxh;
pub mod xxhsum_line;
pub mod xxhsum_options;
pub mod xxhsum_audit;
pub mod xxhsum_fs;
pub mod xxhsum_output;
pub mod xxhsum_program;
pub mod xxhsum_app;
pub mod xxhsum;
