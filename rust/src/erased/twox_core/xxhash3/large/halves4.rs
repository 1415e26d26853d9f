// SPDX-License-Identifier: MIT
// crates/twox_core/src/xxhash3/large/halves4.rt without its contracts, written by rust/erase: change that file.

//! The kernel that works on four accumulators at a time and multiplies the halves of a word as words of 32 bits, by
//! `std::simd`: WebAssembly has an instruction for that product, and needs many for a product of words of 64 bits.

use super::four::{HalvesProducts, accumulate_by_fours};
use super::word::words;
use crate::erased::twox_core::xxhash3::Vector;
use crate::erased::twox_core::xxhash3::primes::PRIME32_1;
use super::simd::{u32x4, u64x2, u64x4};

/// The kernel of four accumulators at a time that multiplies halves of words.
#[derive(Clone, Copy)]
pub struct Impl;

impl Vector for Impl {
    #[inline(always)]
    fn round_scramble(&self, acc: &mut [u64; 8], secret_end: &[u8; 64]) {
        let [a, b, c, d, e, f, g, h] = *acc;
        let [a, b, c, d] = scramble_four([a, b, c, d], words(secret_end, 0));
        let [e, f, g, h] = scramble_four([e, f, g, h], words(secret_end, 4));
        *acc = [a, b, c, d, e, f, g, h];
    }

    #[inline(always)]
    fn accumulate(&self, acc: &mut [u64; 8], stripe: &[u8; 64], secret: &[u8; 64]) {
        accumulate_by_fours(Products {}, acc, stripe, secret);
    }
}

// Products of words of 32 bits.
#[derive(Clone, Copy)]
struct Products;

impl HalvesProducts for Products {
    // Joins the halves of two vectors before widening them: from the halves of one LLVM would make a mask and a shift
    // again, and from these no product of words of 32 bits.
    #[inline(always)]
    fn halves_products(&self, words: [u64; 4], keys: [u64; 4]) -> [u64; 4] {
        let [w0, w1, w2, w3] = words;
        let [k0, k1, k2, k3] = keys;
        let values = u64x4::from_array([w0, w1, w2, w3]) ^ u64x4::from_array([k0, k1, k2, k3]);
        let [v0, v1, v2, v3] = values.to_array();
        let [l0, h0, l1, h1] = halves_of([v0, v1]);
        let [l2, h2, l3, h3] = halves_of([v2, v3]);
        let front = u32x4::from_array([l0, h0, l1, h1]);
        let back = u32x4::from_array([l2, h2, l3, h3]);
        let low = front.shuffle(back, [0, 2, 4, 6]).cast::<u64>();
        let high = front.shuffle(back, [1, 3, 5, 7]).cast::<u64>();
        (low * high).to_array()
    }
}

// Splits two words into their halves, the lower one first.
#[inline]
fn halves_of(words: [u64; 2]) -> [u32; 4] {
    let [a, b] = words;
    u32x4::from_le_bytes(u64x2::from_array([a, b]).to_le_bytes()).to_array()
}

#[inline]
fn scramble_four(acc: [u64; 4], keys: [u64; 4]) -> [u64; 4] {
    let [a0, a1, a2, a3] = acc;
    let [k0, k1, k2, k3] = keys;
    let acc = u64x4::from_array([a0, a1, a2, a3]);
    let keys = u64x4::from_array([k0, k1, k2, k3]);
    ((acc ^ (acc >> u64x4::splat(47)) ^ keys) * u64x4::splat(PRIME32_1)).to_array()
}
