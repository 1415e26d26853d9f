// SPDX-License-Identifier: MIT
// crates/twox_core/src/xxhash3/large/scalar.rt without its contracts, written by rust/erase: change that file.

//! The kernel that works on one accumulator after another.

use super::word::word;
use crate::erased::twox_core::xxhash3::Vector;
use crate::erased::twox_core::xxhash3::primes::PRIME32_1;

/// The scalar kernel.
#[derive(Clone, Copy)]
pub struct Impl;

impl Vector for Impl {
    #[inline(always)]
    fn round_scramble(&self, acc: &mut [u64; 8], secret_end: &[u8; 64]) {
        let [a, b, c, d, e, f, g, h] = *acc;
        *acc = [
            scramble_one(a, secret_end, 0),
            scramble_one(b, secret_end, 1),
            scramble_one(c, secret_end, 2),
            scramble_one(d, secret_end, 3),
            scramble_one(e, secret_end, 4),
            scramble_one(f, secret_end, 5),
            scramble_one(g, secret_end, 6),
            scramble_one(h, secret_end, 7),
        ];
    }

    #[inline(always)]
    fn accumulate(&self, acc: &mut [u64; 8], stripe: &[u8; 64], secret: &[u8; 64]) {
        let [a, b, c, d, e, f, g, h] = *acc;
        *acc = [
            accumulate_one(a, stripe, secret, 0),
            accumulate_one(b, stripe, secret, 1),
            accumulate_one(c, stripe, secret, 2),
            accumulate_one(d, stripe, secret, 3),
            accumulate_one(e, stripe, secret, 4),
            accumulate_one(f, stripe, secret, 5),
            accumulate_one(g, stripe, secret, 6),
            accumulate_one(h, stripe, secret, 7),
        ];
    }
}

// Accumulates into accumulator `i`: adds its neighbour's word of the stripe and the product of the halves of its own.
#[inline(always)]
fn accumulate_one(accumulator: u64, stripe: &[u8; 64], secret: &[u8; 64], i: usize) -> u64 {
    let value = word(stripe, i) ^ word(secret, i);
    accumulator
        .wrapping_add(word(stripe, i ^ 1))
        .wrapping_add(halves_product(value))
}

#[inline(always)]
fn halves_product(value: u64) -> u64 {
    full_product((value & 0xffff_ffff) as u32, (value >> 32) as u32)
}

#[inline(always)]
fn full_product(a: u32, b: u32) -> u64 {
    u64::from(a) * u64::from(b)
}

#[inline(always)]
fn scramble_one(accumulator: u64, secret_end: &[u8; 64], i: usize) -> u64 {
    (accumulator ^ (accumulator >> 47) ^ word(secret_end, i)).wrapping_mul(PRIME32_1)
}
