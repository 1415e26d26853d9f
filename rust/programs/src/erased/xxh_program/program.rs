// SPDX-License-Identifier: MIT
// crates/xxh_program/src/program.rt without its contracts, written by rust/erase --programs: change that file.

//! Digest lines of a source's bytes, and the program `xxh` over any streams.

mod blocks;
mod command_line;
mod derived_secret;
mod engine;
mod feed;
mod hasher_32;
mod hasher_3_128;
mod hasher_3_64;
mod hasher_64;
mod information;
mod memory;
mod process;
mod states;
mod value;

pub use blocks::{block_counts, digest_blocks};
pub use command_line::run;
pub use engine::digest;
pub use hasher_32::{digest_from_32, read_on_32};
pub use hasher_64::{digest_from_64, read_on_64};
pub use information::{Information, information_of, print_information};
pub use memory::digest_of_bytes;
pub use process::run_process;
pub use value::value_of_source;
pub use crate::programs::xxh_io::buffered::Buffered;
pub use crate::programs::xxh_io::digest_error::DigestError;
pub use crate::programs::xxh_io::from_read::{FromRead, reader_pieces};
pub use crate::programs::xxh_io::from_write::{FromWrite, writer_pieces};
pub use crate::programs::xxh_io::kind::Kind;
pub use crate::programs::xxh_io::script_sink::ScriptSink;
pub use crate::programs::xxh_io::script_source::{ScriptSource, SliceSource};
pub use crate::programs::xxh_io::streams::{Failed, Sink, Source};
