// SPDX-License-Identifier: MIT
// crates/twox_plain/src/xxhash32.rt without its contracts, written by rust/erase: change that file.

//! The implementation of XXH32 (the xxHash specification, "XXH32 algorithm description").

use crate::rattle::prelude::{Clone, prove};
mod rounds;
mod state;

use crate::erased::twox_plain::words::{Halves, IntoU64};
use rounds::{BYTES_IN_STRIPE, impl_long, impl_oneshot, impl_short};
use crate::rattle::AllocError;
use std::error::Error;
use std::{fmt, hash};

/// Calculates the 32-bit hash, of a slice at once or of chunks one after another.
///
/// ```rattle
/// use twox_hash::XxHash32;
///
/// let mut hasher = XxHash32::with_seed(0);
/// hasher.write(b"Hello, ");
/// hasher.write(b"world!\0");
/// hasher.finish_32() // 0x9e5e7e93, as XxHash32::oneshot(0, b"Hello, world!\0")
/// ```
///
/// In contracts a hasher is its record, [`SavedState`]. A record represents a list of bytes (`Represents`) if writing
/// chunks that join to the list produces it. The contracts of `write` and `finish` are in these terms.
///
/// Two hashers are equal if and only if their records are, including unread bytes of the buffer: hashers of the same
/// bytes can be unequal if the bytes were written in different chunks.
#[derive(Debug)]
pub struct Hasher {
    state: StateInMemory,
}

impl Hasher {
    /// Hashes the whole input at once.
    ///
    /// Always detects a changed unit: every other list of the same length that differs from the input only within one
    /// four-byte word, counted from byte 0, or within one of the bytes after the last word, has another hash under this
    /// seed. Under 16 bytes, so has the input under every other seed.
    #[inline(always)]
    pub fn oneshot(seed: u32, input: &[u8]) -> u32 {
        impl_oneshot(seed, input)
    }

    // Returns the hash of `oneshot`, by stripes only.
    pub(crate) fn oneshot_by_stripes(seed: u32, input: &[u8]) -> u32 {
        if input.len() < BYTES_IN_STRIPE {
            impl_short(seed, input)
        } else {
            impl_long::<false>(seed, input)
        }
    }

    /// Creates a hasher that has hashed no bytes.
    #[inline]
    pub const fn with_seed(seed: u32) -> Hasher {
        Hasher {
            state: StateInMemory::of_record(SavedState {
                total_len: 0,
                seed,
                core: Core::new(seed),
                buffer: [0; BYTES_IN_STRIPE],
                buffer_usage: 0,
            }),
        }
    }

    /// Returns the seed of the hasher.
    pub const fn seed(&self) -> u32 {
        self.state.seed
    }

    /// Total bytes hashed, saturating at `u64::MAX`.
    pub const fn total_len(&self) -> u64 {
        self.state.total_len()
    }

    /// Hashes a chunk. An empty chunk changes nothing that later calls read.
    ///
    /// Bytes of the buffer that are not in use have no effect: two hashers that differ only in them still do so after
    /// the same write.
    #[inline]
    pub fn write(&mut self, input: &[u8]) {
        self.state.add_piece(input);
    }

    // Hashes a chunk as `write` does, by stripes only.
    pub(crate) fn write_by_stripes(&mut self, input: &[u8]) {
        self.state.take_piece::<false>(input);
    }

    /// Returns the low 32 bits of the number of bytes hashed.
    pub fn total_len_32(&self) -> u32 {
        self.total_len().lower_half()
    }

    /// Hashes the bytes of an array after the bytes before, as [`Hasher::write`] does.
    #[inline(always)]
    pub fn write_array<const N: usize>(&mut self, bytes: &[u8; N]) {
        self.state.add_array(bytes);
    }

    /// Returns the hash of the bytes written so far. More can be written afterwards.
    #[inline]
    pub fn finish_32(&self) -> u32 {
        self.state.finish()
    }

    /// Returns the number of [`Hasher::finish_32`], with the upper 32 bits zero.
    #[inline]
    pub fn finish(&self) -> u64 {
        self.finish_32().into_u64()
    }

    /// Returns the record of everything that the hasher holds, with every byte of the buffer.
    pub fn to_state(&self) -> SavedState {
        self.state.record()
    }

    /// Restores the hasher of this record. The record may be untrusted: no accepted record makes a later call fail.
    ///
    /// Accepts a record if and only if it represents some list of bytes; the hasher then represents every such list.
    /// Bytes of the buffer are never tested.
    ///
    /// # Errors
    ///
    /// - [`RestoreError::BufferUsage`] if the buffer usage isn't the remainder of `total_len` by a stripe or, for a
    ///   `total_len` of `u64::MAX`, isn't below a stripe. This is tested first.
    /// - [`RestoreError::Core`] if `total_len` is below a stripe and the accumulators aren't the seed's initial ones.
    pub fn from_state(state: SavedState) -> Result<Hasher, RestoreError> {
        if !state.usage_fits() {
            return Err(RestoreError::BufferUsage);
        }
        if !state.core_fits() {
            return Err(RestoreError::Core);
        }
        Ok(Hasher {
            state: StateInMemory::of_record(state),
        })
    }
}

/// Creates a hasher with the seed 0.
impl Default for Hasher {
    fn default() -> Hasher {
        Hasher::with_seed(0)
    }
}

/// Copies the record. Allocates nothing.
impl Clone for Hasher {
    fn clone(&self) -> Result<Hasher, AllocError> {
        Ok(Hasher { state: self.state })
    }
}

impl PartialEq for Hasher {
    fn eq(&self, other: &Hasher) -> bool {
        self.to_state() == other.to_state()
    }
}

impl hash::Hasher for Hasher {
    fn finish(&self) -> u64 {
        Hasher::finish(self)
    }

    fn write(&mut self, bytes: &[u8]) {
        Hasher::write(self, bytes);
    }
}

/// Everything that a hasher holds, as a record to save and restore.
///
/// Bytes of the buffer from `buffer_usage` on are not read by any call. They are zero in a new hasher and left over
/// from earlier chunks in others, and are part of the record in both cases.
#[derive(Clone, Copy, Debug, PartialEq, Eq)]
#[repr(C)]
pub struct SavedState {
    /// Total bytes hashed, saturating at `u64::MAX`.
    pub total_len: u64,
    /// The seed.
    pub seed: u32,
    /// The four accumulators after the whole stripes so far.
    pub core: Core,
    /// The buffer. Begins with the bytes that fill no stripe yet.
    pub buffer: [u8; BYTES_IN_STRIPE],
    /// Number of bytes buffered: less than a stripe.
    pub buffer_usage: usize,
}

impl SavedState {
    // True if the buffer usage is the remainder of the length or, if the length overflowed, less than a stripe.
    fn usage_fits(&self) -> bool {
        if self.total_len < u64::MAX {
            self.buffer_usage.into_u64() == self.total_len % BYTES_IN_STRIPE.into_u64()
        } else {
            self.buffer_usage < BYTES_IN_STRIPE
        }
    }

    // True if the accumulators are the seed's initial ones, or there was a whole stripe.
    fn core_fits(&self) -> bool {
        self.total_len >= BYTES_IN_STRIPE.into_u64() || self.core == Core::new(self.seed)
    }
}

/// Four accumulators of a hasher.
#[derive(Clone, Copy, Debug, PartialEq, Eq)]
#[repr(C)]
pub struct Core {
    pub v1: u32,
    pub v2: u32,
    pub v3: u32,
    pub v4: u32,
}

/// The error for a record that no hasher has.
#[derive(Clone, Copy, Debug, PartialEq, Eq)]
pub enum RestoreError {
    /// The buffer usage is not the remainder of the length.
    BufferUsage,
    /// There was no whole stripe, and the accumulators are not the seed's initial ones.
    Core,
}

impl fmt::Display for RestoreError {
    fn fmt(&self, f: &mut fmt::Formatter<'_>) -> fmt::Result {
        f.write_str(match self {
            RestoreError::BufferUsage => "The buffer usage does not match the total length",
            RestoreError::Core => "The core does not match the seed",
        })
    }
}

impl Error for RestoreError {}

/// Marks a record in memory: the letters `XX32`, the first in the low byte, to which the buffer usage is added. Of the
/// 2^32 words that memory may have there, 16 are valid.
pub const MARK: u32 = 0x3233_5858;

/// A record as it is laid out in memory, also in a state that C holds: 48 bytes, aligned to 4, as in the C library.
/// Other fields separate the accumulators, in the order of this declaration; LLVM would make a vector of adjacent
/// accumulators, and products of such vectors are slow. It loads and stores the halves of the length as one word, since
/// they are adjacent.
///
/// [`SavedState`] describes the fields; contracts see that record by `record_of`. Each field may have any value, so
/// calls that need a buffer usage below a stripe require it. One test of `usage()` checks that and the mark.
#[repr(C)]
#[derive(Clone, Copy, Debug)]
pub struct StateInMemory {
    /// The first accumulator.
    pub v1: u32,
    /// The seed.
    pub seed: u32,
    /// The second accumulator.
    pub v2: u32,
    /// [`MARK`] plus the number of bytes buffered.
    pub marked_usage: u32,
    /// The third accumulator.
    pub v3: u32,
    /// The low half of the number of bytes hashed, saturating at `u64::MAX`.
    pub total_low: u32,
    /// The high half of that number.
    pub total_high: u32,
    /// The fourth accumulator.
    pub v4: u32,
    /// The buffer. Begins with the bytes that fill no stripe yet.
    pub buffer: [u8; BYTES_IN_STRIPE],
}

const _: () = prove!(size_of::<StateInMemory>() == 48);
