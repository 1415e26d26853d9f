// SPDX-License-Identifier: MIT
// crates/xxh_io/src/fault.rt without its contracts, written by rust/erase --programs: change that file.

//! Errors of a command: the line and the exit status of each, and how it is written to standard error.

use crate::programs::xxh_io::digest_error::DigestError;
use crate::programs::xxh_io::refusal::Refusal;
use crate::programs::xxh_io::streams::Sink;
use crate::programs::xxh_io::waiting::Waiting;
use crate::programs::xxh_io::write::write_all;
use crate::rattle::AllocError;

// Capacity for the line of a read that failed.
const MOST_LINE: usize = 288;

/// The error of a command.
#[derive(Clone, Copy, Debug, PartialEq, Eq)]
pub enum Fault {
    /// The arguments are no command, or the command doesn't support the algorithm.
    Usage,
    /// The seed is not a decimal number, or is too large for the algorithm.
    BadSeed,
    /// The size of a block is not a decimal number from 1 to 2^64 - 1.
    BadSize,
    /// The text is not a saved state, or no hasher has that state.
    BadState,
    /// Out of memory.
    OutOfMemory,
    /// A read or a write failed, or the input was too long.
    Digest(DigestError),
}

impl Fault {
    /// Returns the line for standard error. That of a read that failed lacks the reason.
    pub fn line(self) -> &'static [u8] {
        match self {
            Fault::Usage => {
                b"xxh: usage: xxh hash|save|resume 32|64|3-64|3-128 [SEED|JSON] or xxh blocks SIZE\n"
            }
            Fault::BadSeed => b"xxh: bad seed\n",
            Fault::BadSize => b"xxh: bad size\n",
            Fault::BadState => b"xxh: bad state\n",
            Fault::OutOfMemory => b"xxh: out of memory\n",
            Fault::Digest(DigestError::ReadFailed) => b"xxh: read failed\n",
            Fault::Digest(DigestError::WriteFailed) => b"xxh: write failed\n",
            Fault::Digest(DigestError::TooLong) => b"xxh: too long\n",
        }
    }

    /// Returns the exit status.
    pub fn status(self) -> u8 {
        match self {
            Fault::Digest(_) => 1,
            Fault::Usage | Fault::BadSeed | Fault::BadSize | Fault::BadState => 2,
            Fault::OutOfMemory => 3,
        }
    }
}

impl From<DigestError> for Fault {
    fn from(error: DigestError) -> Fault {
        Fault::Digest(error)
    }
}

impl From<AllocError> for Fault {
    fn from(_error: AllocError) -> Fault {
        Fault::OutOfMemory
    }
}

/// Writes the error message, if there is an error, and returns the exit status. The message of a read that failed has the
/// system's reason, `failure`.
pub fn conclude<E: Sink>(done: Result<(), Fault>, failure: &Refusal, err: &mut E) -> u8 {
    match done {
        Ok(()) => 0,
        Err(fault) => {
            report(fault, failure, err);
            fault.status()
        }
    }
}

// Writes the error message by one call. That a write fails changes nothing.
fn report<E: Sink>(fault: Fault, failure: &Refusal, err: &mut E) {
    match fault {
        Fault::Digest(DigestError::ReadFailed) => {
            let mut line = Waiting::<MOST_LINE>::new();
            line.append(b"xxh: read failed: ");
            line.append(failure.text());
            line.append(b"\n");
            let _ = line.flush(err);
        }
        _ => {
            let _ = write_all(fault.line(), err);
        }
    }
}
