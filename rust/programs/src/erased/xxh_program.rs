// SPDX-License-Identifier: MIT
// crates/xxh_program/src/lib.rt without its contracts, written by rust/erase --programs: change that file.

//! The digest engine and the program `xxh`, all in the module [`program`].

pub mod program;
