// SPDX-License-Identifier: MIT
// crates/xxhsum_program/src/arguments.rt without its contracts, written by rust/erase --programs: change that file.

//! The arguments of a program, as bytes.

use crate::rattle::prelude::Vec;
use crate::rattle::{AllocError, Global};
use crate::rattle::env::FillError;
use crate::rattle::rt::Env;
use crate::programs::xxh_io::heap::buffer;

// The first capacity that is tried for an argument, and how often it is doubled.
const FIRST_ROOM: usize = 256;

const MOST_ROOMS: u32 = 40;

/// The arguments that a program is called with, by index. Argument 0 is the program's name.
pub trait Arguments {
    /// Copies the argument at this index to the front of `buf` and returns its length.
    ///
    /// # Errors
    ///
    /// [`FillError::NotPresent`] if there is no such argument, and [`FillError::TooLong`] if it is longer than `buf`.
    fn fill(&self, index: usize, buf: &mut [u8]) -> Result<usize, FillError>;
}

/// The arguments of a process. No clause says which they are.
#[derive(Clone, Copy)]
pub struct ProcessArguments<'a, P> {
    process: &'a P,
}

impl<'a, P: Env> ProcessArguments<'a, P> {
    /// Returns the arguments of this process.
    pub fn new(process: &'a P) -> ProcessArguments<'a, P> {
        ProcessArguments { process }
    }
}

impl<P: Env> Arguments for ProcessArguments<'_, P> {
    fn fill(&self, index: usize, buf: &mut [u8]) -> Result<usize, FillError> {
        self.process.arg(index, buf)
    }
}

/// Returns all arguments, the program's name first.
///
/// # Errors
///
/// `AllocError` if memory runs out.
pub fn all_arguments<A: Arguments>(alloc: Global, arguments: &A) -> Result<Vec<Vec<u8>>, AllocError> {
    let mut all = Vec::new(alloc);
    for index in 0..usize::MAX {
        match argument(alloc, arguments, index)? {
            Some(bytes) => all.push(bytes)?,
            None => return Ok(all),
        }
    }
    Err(AllocError)
}

// Returns the argument at this index, or `None` if there is none. `AllocError` if memory runs out.
fn argument<A: Arguments>(
    alloc: Global,
    arguments: &A,
    index: usize,
) -> Result<Option<Vec<u8>>, AllocError> {
    let mut room = FIRST_ROOM;
    for _ in 0..MOST_ROOMS {
        let mut bytes = buffer(alloc, room)?;
        match arguments.fill(index, bytes.as_mut_slice()) {
            Ok(len) => {
                bytes.truncate(len);
                return Ok(Some(bytes));
            }
            Err(FillError::NotPresent) => return Ok(None),
            Err(FillError::TooLong) => room = room.saturating_mul(2),
        }
    }
    Err(AllocError)
}

/// Returns the part of a path after its last slash.
pub fn last_part(path: &[u8]) -> &[u8] {
    match crate::rattle::memchr::memrchr(b'/', path) {
        Some(place) => &path[place + 1..],
        None => path,
    }
}
