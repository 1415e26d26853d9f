// SPDX-License-Identifier: MIT
// crates/twox_core/src/xxhash3/large/lanes4.rt without its contracts, written by rust/erase: change that file.

//! The kernel that works on four accumulators at a time, by `std::simd`.

use super::four::{HalvesProducts, accumulate_by_fours, accumulate_four_by_four};
use super::word::words;
use crate::erased::twox_core::xxhash3::Vector;
use crate::erased::twox_core::xxhash3::primes::PRIME32_1;
use super::simd::{u32x8, u64x4};

/// The kernel of four accumulators at a time.
#[derive(Clone, Copy)]
pub struct Impl;

impl Vector for Impl {
    #[inline(always)]
    fn round_scramble(&self, acc: &mut [u64; 8], secret_end: &[u8; 64]) {
        let [a, b, c, d, e, f, g, h] = *acc;
        let [a, b, c, d] = scramble_four([a, b, c, d], words(secret_end, 0));
        let [e, f, g, h] = scramble_four([e, f, g, h], words(secret_end, 4));
        *acc = [a, b, c, d, e, f, g, h];
    }

    #[inline(always)]
    fn accumulate(&self, acc: &mut [u64; 8], stripe: &[u8; 64], secret: &[u8; 64]) {
        accumulate_by_fours(Products {}, acc, stripe, secret);
    }

    #[inline(always)]
    fn accumulate_four_stripes(&self, acc: &mut [u64; 8], stripes: &[u8; 256], secret: &[u8; 88]) {
        let [a, b, c, d, e, f, g, h] = *acc;
        let [a, b, c, d] = accumulate_four_by_four(Products {}, [a, b, c, d], stripes, secret, 0);
        let [e, f, g, h] = accumulate_four_by_four(Products {}, [e, f, g, h], stripes, secret, 4);
        *acc = [a, b, c, d, e, f, g, h];
    }

    // A build for vectors of 512 bits returns `true` instead (`assembly/wide.py`). No clause fixes the result, so each
    // caller is proved for both.
    #[inline(always)]
    fn is_widened(&self) -> bool {
        false
    }
}

// Products of words of 64 bits whose upper halves are 0.
#[derive(Clone, Copy)]
struct Products;

impl HalvesProducts for Products {
    #[inline(always)]
    fn halves_products(&self, words: [u64; 4], keys: [u64; 4]) -> [u64; 4] {
        let [w0, w1, w2, w3] = words;
        let [k0, k1, k2, k3] = keys;
        let values = u64x4::from_array([w0, w1, w2, w3]) ^ u64x4::from_array([k0, k1, k2, k3]);
        let high = values >> u64x4::splat(32);
        let low = values & u64x4::splat(0xffff_ffff);
        (low * high).to_array()
    }
}

#[inline(always)]
fn scramble_four(acc: [u64; 4], keys: [u64; 4]) -> [u64; 4] {
    let [a0, a1, a2, a3] = acc;
    let [k0, k1, k2, k3] = keys;
    let acc = u64x4::from_array([a0, a1, a2, a3]);
    let keys = u64x4::from_array([k0, k1, k2, k3]);
    times_prime((acc ^ (acc >> u64x4::splat(47)) ^ keys).to_array())
}

// Multiplies each word by the prime, modulo 2^64. Most processors have no vector product of 64 bits, and on 64-bit ARM
// LLVM makes one outside of vectors. So the upper half is multiplied as a word of 32 bits, in place.
#[inline(always)]
fn times_prime(words: [u64; 4]) -> [u64; 4] {
    let prime = PRIME32_1 as u32;
    let factors = u32x8::from_array([0, prime, 0, prime, 0, prime, 0, prime]);
    let [a, b, c, d] = joined((halves_of(words) * factors).to_array());
    let upper = u64x4::from_array([a, b, c, d]);
    let [a, b, c, d] = words;
    let lower = u64x4::from_array([a, b, c, d]) & u64x4::splat(0xffff_ffff);
    (upper + lower * u64x4::splat(PRIME32_1)).to_array()
}

// Splits each word into its halves, the lower one first.
#[inline(always)]
fn halves_of(words: [u64; 4]) -> u32x8 {
    let [a, b, c, d] = words;
    u32x8::from_le_bytes(u64x4::from_array([a, b, c, d]).to_le_bytes())
}

// Joins the halves to words.
#[inline(always)]
fn joined(halves: [u32; 8]) -> [u64; 4] {
    let [a, b, c, d, e, f, g, h] = halves;
    let halves = u32x8::from_array([a, b, c, d, e, f, g, h]);
    u64x4::from_le_bytes(halves.to_le_bytes()).to_array()
}
