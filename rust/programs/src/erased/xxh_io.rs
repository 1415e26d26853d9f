// SPDX-License-Identifier: MIT
// crates/xxh_io/src/lib.rt without its contracts, written by rust/erase --programs: change that file.

//! The part of the program `xxh` that uses no hash: streams to read from and write to, buffers, hexadecimal lines, the
//! arguments, and error messages.

pub mod arguments;
pub mod buffered;
pub mod command;
pub mod digest_error;
pub mod fault;
pub mod from_read;
pub mod from_write;
pub mod heap;
pub mod hex;
pub mod kind;
pub mod refusal;
pub mod script_sink;
pub mod script_source;
pub mod streams;
pub mod waiting;
pub mod words;
pub mod write;
