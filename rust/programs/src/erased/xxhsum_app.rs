// SPDX-License-Identifier: MIT
// crates/xxhsum_app/src/lib.rt without its contracts, written by rust/erase --programs: change that file.

//! The program `xxhsum` over its arguments: walks of folders, lists of names, and audits against a list of digests.
//! Other runs are those of `xxhsum_program`.

pub mod audit;
mod digests;
pub mod names;
mod read_list;
mod report;
pub mod run;
pub mod texts;
pub mod walk;
