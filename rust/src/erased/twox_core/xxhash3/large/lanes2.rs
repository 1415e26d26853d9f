// SPDX-License-Identifier: MIT
// crates/twox_core/src/xxhash3/large/lanes2.rt without its contracts, written by rust/erase: change that file.

//! The kernel that works on two accumulators at a time, by `std::simd`.

use super::word::word;
use crate::erased::twox_core::xxhash3::Vector;
use crate::erased::twox_core::xxhash3::primes::PRIME32_1;
use super::simd::u64x2;

/// The kernel of two accumulators at a time.
#[derive(Clone, Copy)]
pub struct Impl;

impl Vector for Impl {
    #[inline(always)]
    fn round_scramble(&self, acc: &mut [u64; 8], secret_end: &[u8; 64]) {
        let [a, b, c, d, e, f, g, h] = *acc;
        let [a, b] = scramble_two([a, b], words(secret_end, 0));
        let [c, d] = scramble_two([c, d], words(secret_end, 2));
        let [e, f] = scramble_two([e, f], words(secret_end, 4));
        let [g, h] = scramble_two([g, h], words(secret_end, 6));
        *acc = [a, b, c, d, e, f, g, h];
    }

    #[inline(always)]
    fn accumulate(&self, acc: &mut [u64; 8], stripe: &[u8; 64], secret: &[u8; 64]) {
        let [a, b, c, d, e, f, g, h] = *acc;
        let [a, b] = accumulate_two([a, b], words(stripe, 0), words(secret, 0));
        let [c, d] = accumulate_two([c, d], words(stripe, 2), words(secret, 2));
        let [e, f] = accumulate_two([e, f], words(stripe, 4), words(secret, 4));
        let [g, h] = accumulate_two([g, h], words(stripe, 6), words(secret, 6));
        *acc = [a, b, c, d, e, f, g, h];
    }
}

// Accumulates into two accumulators: adds to each its neighbour's word and the product of the halves of its own word
// under its key. The neighbours come first, so that the old accumulators are no longer needed and their registers are
// free.
#[inline]
fn accumulate_two(acc: [u64; 2], words: [u64; 2], keys: [u64; 2]) -> [u64; 2] {
    let [a0, a1] = acc;
    let [w0, w1] = words;
    let [k0, k1] = keys;
    let words = u64x2::from_array([w0, w1]);
    let sums = u64x2::from_array([a0, a1]) + words.swizzle([1, 0]);
    let values = words ^ u64x2::from_array([k0, k1]);
    let high = values >> u64x2::splat(32);
    let low = values & u64x2::splat(0xffff_ffff);
    (sums + low * high).to_array()
}

#[inline]
fn scramble_two(acc: [u64; 2], keys: [u64; 2]) -> [u64; 2] {
    let [a0, a1] = acc;
    let [k0, k1] = keys;
    let acc = u64x2::from_array([a0, a1]);
    let keys = u64x2::from_array([k0, k1]);
    ((acc ^ (acc >> u64x2::splat(47)) ^ keys) * u64x2::splat(PRIME32_1)).to_array()
}

// Returns two words from word `i` on.
#[inline]
pub(super) fn words(bytes: &[u8; 64], i: usize) -> [u64; 2] {
    [word(bytes, i), word(bytes, i + 1)]
}
