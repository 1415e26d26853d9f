// SPDX-License-Identifier: MIT
// crates/twox_core/src/xxhash3/large/word.rt without its contracts, written by rust/erase: change that file.

//! Code shared by kernels: the words of a stripe and of the secret.

use super::simd::{u8x32, u8x64, u64x4, u64x8};
use crate::erased::twox_words::words::bp_as_chunks;

// Returns word `i`, read whole, so that the compiler can load several words at once.
#[inline(always)]
pub(super) fn word(bytes: &[u8; 64], i: usize) -> u64 {
    let (words, _) = bp_as_chunks::<u8, 8>(bytes);
    u64::from_le_bytes(words[i])
}

// Returns four words from word `i` on, read as one vector. If they are read one by one, LLVM takes those that two
// stripes share only once, and then spends more on building vectors than it saves.
#[inline(always)]
pub(super) fn words(bytes: &[u8; 64], i: usize) -> [u64; 4] {
    u64x4::from_le_bytes(u8x32::from_slice(&bytes[8 * i..8 * i + 32])).to_array()
}

// Returns all eight words, read as one vector.
#[inline(always)]
pub(super) fn all_words(bytes: &[u8; 64]) -> [u64; 8] {
    u64x8::from_le_bytes(u8x64::from_slice(&bytes[0..64])).to_array()
}
