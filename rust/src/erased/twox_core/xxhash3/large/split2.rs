// SPDX-License-Identifier: MIT
// crates/twox_core/src/xxhash3/large/split2.rt without its contracts, written by rust/erase: change that file.

//! The kernel that works on two accumulators at a time and never multiplies two words of 64 bits, by `std::simd`.

use super::lanes2::{self, words};
use crate::erased::twox_core::xxhash3::Vector;
use crate::erased::twox_core::xxhash3::primes::PRIME32_1;
use super::simd::u64x2;

/// The kernel of two accumulators at a time whose products are of 32 bits by 32 bits.
#[derive(Clone, Copy)]
pub struct Impl;

impl Vector for Impl {
    #[inline(always)]
    fn round_scramble(&self, acc: &mut [u64; 8], secret_end: &[u8; 64]) {
        let [a, b, c, d, e, f, g, h] = *acc;
        let [a, b] = scramble_two([a, b], words(secret_end, 0));
        let [c, d] = scramble_two([c, d], words(secret_end, 2));
        let [e, f] = scramble_two([e, f], words(secret_end, 4));
        let [g, h] = scramble_two([g, h], words(secret_end, 6));
        *acc = [a, b, c, d, e, f, g, h];
    }

    #[inline(always)]
    fn accumulate(&self, acc: &mut [u64; 8], stripe: &[u8; 64], secret: &[u8; 64]) {
        lanes2::Impl {}.accumulate(acc, stripe, secret);
    }
}

#[inline]
fn scramble_two(acc: [u64; 2], keys: [u64; 2]) -> [u64; 2] {
    let [a0, a1] = acc;
    let [k0, k1] = keys;
    let acc = u64x2::from_array([a0, a1]);
    let mixed = acc ^ (acc >> u64x2::splat(47)) ^ u64x2::from_array([k0, k1]);
    mul_u32_u64(mixed.to_array(), PRIME32_1 as u32)
}

/// Multiplies each lane by the factor, modulo 2^64, with two products of 32 bits by 32 bits.
#[inline]
pub fn mul_u32_u64(lanes: [u64; 2], factor: u32) -> [u64; 2] {
    let [first, second] = lanes;
    let lanes = u64x2::from_array([first, second]);
    let factor = u64x2::splat(u64::from(factor));
    let low = (lanes & u64x2::splat(0xffff_ffff)) * factor;
    let high = (lanes >> u64x2::splat(32)) * factor;
    (low + (high << u64x2::splat(32))).to_array()
}
