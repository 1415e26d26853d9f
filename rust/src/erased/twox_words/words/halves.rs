// SPDX-License-Identifier: MIT
// crates/twox_words/src/words/halves.rt without its contracts, written by rust/erase: change that file.

//! Halves of a word.

/// Splits a word into its two halves.
pub trait Halves {
    /// A word of half the width.
    type Output;

    /// Returns the upper half of the bits.
    fn upper_half(self) -> Self::Output;

    /// Returns the lower half of the bits.
    fn lower_half(self) -> Self::Output;
}

impl Halves for u64 {
    type Output = u32;

    #[inline(always)]
    fn upper_half(self) -> u32 {
        (self >> 32) as u32
    }

    #[inline(always)]
    fn lower_half(self) -> u32 {
        (self & 0xffff_ffff) as u32
    }
}

impl Halves for u128 {
    type Output = u64;

    #[inline(always)]
    fn upper_half(self) -> u64 {
        (self >> 64) as u64
    }

    #[inline(always)]
    fn lower_half(self) -> u64 {
        (self & 0xffff_ffff_ffff_ffff) as u64
    }
}
