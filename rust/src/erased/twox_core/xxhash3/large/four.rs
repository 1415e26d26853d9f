// SPDX-License-Identifier: MIT
// crates/twox_core/src/xxhash3/large/four.rt without its contracts, written by rust/erase: change that file.

//! Code shared by the kernels of four accumulators at a time: everything except how they multiply and scramble.

use super::word::words;
use crate::erased::twox_core::xxhash3::parts::array_at;
use super::simd::u64x4;

// A kernel that multiplies the halves of four words at a time.
pub(super) trait HalvesProducts: Copy {
    // Returns the product of the halves of each word under its key.
    fn halves_products(&self, words: [u64; 4], keys: [u64; 4]) -> [u64; 4];
}

// Accumulates a stripe into all accumulators, four at a time.
#[inline(always)]
pub(super) fn accumulate_by_fours<K: HalvesProducts>(
    kernel: K,
    acc: &mut [u64; 8],
    stripe: &[u8; 64],
    secret: &[u8; 64],
) {
    let [a, b, c, d, e, f, g, h] = *acc;
    let [a, b, c, d] = accumulate_four(kernel, [a, b, c, d], words(stripe, 0), words(secret, 0));
    let [e, f, g, h] = accumulate_four(kernel, [e, f, g, h], words(stripe, 4), words(secret, 4));
    *acc = [a, b, c, d, e, f, g, h];
}

// Accumulates into four accumulators: adds to each its neighbour's word and the product of the halves of its own word
// under its key. The neighbours come first, so that the old accumulators are no longer needed and their registers are
// free.
#[inline(always)]
fn accumulate_four<K: HalvesProducts>(
    kernel: K,
    acc: [u64; 4],
    words: [u64; 4],
    keys: [u64; 4],
) -> [u64; 4] {
    let [a0, a1, a2, a3] = acc;
    let [w0, w1, w2, w3] = words;
    let others = u64x4::from_array([w0, w1, w2, w3]).swizzle([1, 0, 3, 2]);
    let sums = u64x4::from_array([a0, a1, a2, a3]) + others;
    let [p0, p1, p2, p3] = kernel.halves_products(words, keys);
    (sums + u64x4::from_array([p0, p1, p2, p3])).to_array()
}

// Accumulates four stripes into four accumulators, from accumulator `i` on. Sums the words in place, so that neighbours
// exchange them once. Reads each stripe after the product of the one before: if all words are read first, LLVM does the
// sum first and keeps four products in registers meanwhile.
#[inline(always)]
pub(super) fn accumulate_four_by_four<K: HalvesProducts>(
    kernel: K,
    acc: [u64; 4],
    stripes: &[u8; 256],
    secret: &[u8; 88],
    i: usize,
) -> [u64; 4] {
    let first = words(array_at(stripes, 0), i);
    let first_product = kernel.halves_products(first, words(array_at(secret, 0), i));
    let second = words(array_at(stripes, 64), i);
    let second_product = kernel.halves_products(second, words(array_at(secret, 8), i));
    let third = words(array_at(stripes, 128), i);
    let third_product = kernel.halves_products(third, words(array_at(secret, 16), i));
    let fourth = words(array_at(stripes, 192), i);
    let fourth_product = kernel.halves_products(fourth, words(array_at(secret, 24), i));
    let front = sum(sum(acc, first_product), second_product);
    let own = sum(sum(front, third_product), fourth_product);
    sum_with_exchange(own, sum(sum(sum(first, second), third), fourth))
}

#[inline(always)]
fn sum(a: [u64; 4], b: [u64; 4]) -> [u64; 4] {
    let [a0, a1, a2, a3] = a;
    let [b0, b1, b2, b3] = b;
    (u64x4::from_array([a0, a1, a2, a3]) + u64x4::from_array([b0, b1, b2, b3])).to_array()
}

// Adds its neighbour's word to each of four accumulators.
#[inline(always)]
fn sum_with_exchange(acc: [u64; 4], words: [u64; 4]) -> [u64; 4] {
    let [a0, a1, a2, a3] = acc;
    let [w0, w1, w2, w3] = words;
    let words = u64x4::from_array([w0, w1, w2, w3]);
    (u64x4::from_array([a0, a1, a2, a3]) + words.swizzle([1, 0, 3, 2])).to_array()
}
