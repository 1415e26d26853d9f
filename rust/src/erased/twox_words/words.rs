// SPDX-License-Identifier: MIT
// crates/twox_words/src/words.rt without its contracts, written by rust/erase: change that file.

//! Little-endian words of a slice by absolute position, value-preserving conversions, halves of a word, and chunks of a
//! slice.

mod chunks;
mod halves;
mod widening;

pub use chunks::{bp_as_chunks, bp_as_chunks_mut};
pub use halves::Halves;
pub use widening::{IntoU32, IntoU64, IntoU128};

/// Returns the eight-byte word at byte `i`, low byte first.
///
/// The caller proves that the slice has eight bytes from `i` on, so the load has no test.
#[inline]
pub fn u64_at(bytes: &[u8], i: usize) -> u64 {
    crate::rattle::u64_at(bytes, i)
}

/// Returns the four-byte word at byte `i`, low byte first.
///
/// The caller proves that the slice has four bytes from `i` on, so the load has no test.
#[inline]
pub fn u32_at(bytes: &[u8], i: usize) -> u32 {
    crate::rattle::u32_at(bytes, i)
}

/// Words at both ends of a slice of bytes, low byte first.
///
/// Each method returns `None` if and only if the slice has fewer bytes than the word.
pub trait U8SliceExt {
    /// Returns the word of the first four bytes.
    fn first_u32(self) -> Option<u32>;

    /// Returns the word of the last four bytes.
    fn last_u32(self) -> Option<u32>;

    /// Returns the word of the first eight bytes.
    fn first_u64(self) -> Option<u64>;

    /// Returns the word of the last eight bytes.
    fn last_u64(self) -> Option<u64>;
}

impl U8SliceExt for &[u8] {
    #[inline(always)]
    fn first_u32(self) -> Option<u32> {
        if self.len() < 4 {
            return None;
        }
        Some(u32_at(self, 0))
    }

    #[inline(always)]
    fn last_u32(self) -> Option<u32> {
        if self.len() < 4 {
            return None;
        }
        Some(u32_at(self, self.len() - 4))
    }

    #[inline(always)]
    fn first_u64(self) -> Option<u64> {
        if self.len() < 8 {
            return None;
        }
        Some(u64_at(self, 0))
    }

    #[inline(always)]
    fn last_u64(self) -> Option<u64> {
        if self.len() < 8 {
            return None;
        }
        Some(u64_at(self, self.len() - 8))
    }
}
