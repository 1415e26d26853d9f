// SPDX-License-Identifier: MIT
// crates/twox_core/src/xxhash3/parts.rt without its contracts, written by rust/erase: change that file.

//! Borrowed parts of an input or a secret, without a test: the caller proves that they lie within it.

use super::Secret;
use crate::erased::twox_words::words::bp_as_chunks;

// Borrows the `n` bytes from byte `from` on.
#[inline(always)]
fn part_at(bytes: &[u8], from: usize, n: usize) -> &[u8] {
    let (_, rest) = bytes.split_at(from);
    let (part, _) = rest.split_at(n);
    part
}

// Does nothing. The crate for cargo tests the lengths of a middle input and of the secret here, in place of one test for
// each word.
#[inline(always)]
pub(crate) fn expect_middle(input: &[u8], secret: Secret<'_>) {
    crate::kernels::expect_middle(input, secret)
}

// Borrows the `N` bytes from byte `from` on. `N` isn't 0.
#[inline(always)]
pub(crate) fn array_at<const N: usize>(bytes: &[u8], from: usize) -> &[u8; N] {
    let (arrays, _) = bp_as_chunks(part_at(bytes, from, N));
    &arrays[0]
}

// Borrows the eight chunks of 16 bytes from byte `from` on.
#[inline(always)]
pub(crate) fn chunks_at(bytes: &[u8], from: usize) -> &[[u8; 16]] {
    let (chunks, _) = bp_as_chunks(part_at(bytes, from, 128));
    chunks
}

// Borrows the four pairs of chunks of 16 bytes from byte `from` on.
#[inline(always)]
pub(crate) fn pairs_at(bytes: &[u8], from: usize) -> &[[[u8; 16]; 2]] {
    let (pairs, _) = bp_as_chunks(chunks_at(bytes, from));
    pairs
}

// Borrows the 32 bytes from byte `from` on, as two chunks of 16.
#[inline(always)]
pub(crate) fn pair_at(bytes: &[u8], from: usize) -> &[[u8; 16]; 2] {
    let (chunks, _) = bp_as_chunks(part_at(bytes, from, 32));
    let (pairs, _) = bp_as_chunks(chunks);
    &pairs[0]
}

/// Borrows chunk `c` of 16 bytes from the front, chunk `c` from the back, and the secret's 32 bytes at `32 * c`.
///
/// The caller proves that there are 17 to 128 bytes, and that `c` is at most (n - 1) / 32 for n bytes.
#[inline(always)]
pub fn chunks_17_to_128<'a>(
    secret: Secret<'a>,
    input: &'a [u8],
    c: usize,
) -> (&'a [u8; 16], &'a [u8; 16], &'a [[u8; 16]; 2]) {
    let forward = array_at(input, 16 * c);
    let backward = array_at(input, input.len() - 16 * (c + 1));
    let (words, _) = bp_as_chunks(secret.words_for_17_to_128());
    (forward, backward, &words[c])
}

/// Borrows the whole pairs of 16 bytes from the front, without the fewer than 32 bytes after them.
#[inline(always)]
pub fn pairs_of_u64_bytes(bytes: &[u8]) -> &[[[u8; 16]; 2]] {
    let (halves, _) = bp_as_chunks(bytes);
    let (pairs, _) = bp_as_chunks(halves);
    pairs
}

/// Splits off all whole stripes of 64 bytes, except a last one that ends the block, and returns them and the 1 to 64
/// bytes after them. For an empty block both are empty.
#[inline(always)]
pub fn stripes_with_tail(block: &[u8]) -> (&[[u8; 64]], &[u8]) {
    let count = block.len().saturating_sub(1) / 64;
    let (front, tail) = block.split_at(count * 64);
    let (stripes, _) = bp_as_chunks(front);
    (stripes, tail)
}
