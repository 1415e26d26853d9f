// SPDX-License-Identifier: MIT
// crates/xxh_program/src/program/command_line.rt without its contracts, written by rust/erase --programs: change that file.

//! The program `xxh` over any streams: runs the command of the arguments, and writes the error message.

use crate::programs::xxh_program::program::blocks::digest_blocks_by;
use crate::programs::xxh_program::program::engine::digest_reading;
use crate::programs::xxh_program::program::states::{MAX_READS, resume_32, resume_64, save_32, save_64};
use crate::rattle::Global;
use crate::programs::xxh_io::command::{Command, parse};
use crate::programs::xxh_io::digest_error::DigestError;
use crate::programs::xxh_io::fault::{Fault, conclude};
use crate::programs::xxh_io::streams::{Sink, Source};

// Size of the read buffer for digests and lines of blocks: larger than the buffer of a process's input, so that the
// bytes are not copied from there.
const READ: usize = 131072;

// Number of bytes of lines of blocks that are written at once.
const BLOCKS_WRITE: usize = 6400;

/// Runs the command of the arguments after the program's name, and returns the exit status.
///
/// | arguments | effect |
/// |---|---|
/// | `hash KIND [SEED]` | prints the digest line of the input |
/// | `save KIND [SEED]` | prints the saved text of the input's hasher, and a newline |
/// | `resume KIND JSON` | continues from a saved text, and prints the digest line |
/// | `blocks SIZE` | prints the digest line of each block of the input, as [`digest_blocks`](super::digest_blocks) does |
///
/// KIND is `32`, `64`, `3-64` or `3-128` for `hash`, and `32` or `64` for `save` and `resume`. SEED is one or more
/// decimal digits, below 2^32 for `32` and below 2^64 otherwise; without it the seed is 0. JSON is a saved text. SIZE
/// is one or more decimal digits with a value from 1 to 2^64 - 1. The arguments are tested first: their number, the
/// command and the algorithm, and then the seed, the size or the state. If they are invalid, nothing is read.
///
/// | status | line on `err` |
/// |---|---|
/// | 0 | none |
/// | 1 | `xxh: read failed: ` and the system's reason, `xxh: write failed` or `xxh: too long` |
/// | 2 | `xxh: usage: ..`, `xxh: bad seed`, `xxh: bad size` or `xxh: bad state` |
/// | 3 | `xxh: out of memory` |
///
/// A line that can't be written to `err` does not change the status. The caller proves that no stream has failed.
pub fn run<R: Source, W: Sink, E: Sink>(
    alloc: Global,
    words: &[&str],
    r: &mut R,
    out: &mut W,
    err: &mut E,
) -> u8 {
    let answer = match parse(words) {
        Ok(command) => perform(alloc, command, r, out),
        Err(fault) => Err(fault),
    };
    conclude(answer, &r.failure(), err)
}

// Uses large buffers, to reduce system calls for small blocks.
fn print_blocks<R: Source, W: Sink>(size: u64, r: &mut R, out: &mut W) -> Result<(), DigestError> {
    digest_blocks_by::<R, W, READ, BLOCKS_WRITE>(r, out, size, MAX_READS)
}

fn perform<R: Source, W: Sink>(
    alloc: Global,
    command: Command<'_>,
    r: &mut R,
    out: &mut W,
) -> Result<(), Fault> {
    match command {
        Command::Hash { kind, seed } => {
            Ok(digest_reading::<_, _, READ>(kind, seed, MAX_READS, r, out)?)
        }
        Command::Save32 { seed } => save_32(alloc, seed, r, out),
        Command::Save64 { seed } => save_64(alloc, seed, r, out),
        Command::Resume32 { json } => resume_32(alloc, json, r, out),
        Command::Resume64 { json } => resume_64(alloc, json, r, out),
        Command::Blocks { size } => Ok(print_blocks(size, r, out)?),
    }
}
