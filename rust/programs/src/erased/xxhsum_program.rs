// SPDX-License-Identifier: MIT
// crates/xxhsum_program/src/lib.rt without its contracts, written by rust/erase --programs: change that file.

//! The program `xxhsum` over any store of files and any streams: prints digest lines of files, and checks lists of
//! them.

pub mod arguments;
pub mod check;
pub mod context;
mod entry;
pub mod good_lists;
pub mod hash;
pub mod lines;
pub mod outcome;
pub mod printed_lists;
pub mod process;
pub mod progress;
pub mod progress_reader;
pub mod stderr;
pub mod stdout;
pub mod stop;
pub mod streams;
pub mod terminal;
mod usage;
