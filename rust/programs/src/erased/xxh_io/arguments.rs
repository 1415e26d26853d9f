// SPDX-License-Identifier: MIT
// crates/xxh_io/src/arguments.rt without its contracts, written by rust/erase --programs: change that file.

//! The arguments of a process.

use crate::rattle::prelude::{String, Vec};
use crate::programs::xxh_io::fault::Fault;
use crate::rattle::{AllocError, Global};
use crate::rattle::io;
use crate::rattle::io::ErrorKind;

/// Returns the error for missing arguments: one is not UTF-8, or out of memory.
pub fn argument_fault(error: io::Error) -> Fault {
    match error.kind() {
        ErrorKind::InvalidData => Fault::Usage,
        _ => Fault::OutOfMemory,
    }
}

/// Returns the arguments after the program's name. Fails if out of memory.
pub fn words_after_name(alloc: Global, args: &[String]) -> Result<Vec<&str>, AllocError> {
    let after_name = match args.split_first() {
        Some((_, rest)) => rest,
        None => args,
    };
    let mut words = Vec::new(alloc);
    for word in after_name {
        words.push(word.as_str())?;
    }
    Ok(words)
}
