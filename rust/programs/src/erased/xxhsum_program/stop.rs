// SPDX-License-Identifier: MIT
// crates/xxhsum_program/src/stop.rt without its contracts, written by rust/erase --programs: change that file.

//! The reason why a run stops early.

use crate::rattle::AllocError;

/// The reason why a run stops before its last name. An unreadable file is no such reason.
#[derive(Clone, Copy, Debug, PartialEq, Eq)]
pub enum Stop {
    /// A write to standard output failed.
    WriteFailed,
    /// Memory ran out.
    OutOfMemory,
}

impl From<AllocError> for Stop {
    fn from(_error: AllocError) -> Stop {
        Stop::OutOfMemory
    }
}
