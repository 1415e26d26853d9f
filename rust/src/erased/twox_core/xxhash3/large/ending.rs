// SPDX-License-Identifier: MIT
// crates/twox_core/src/xxhash3/large/ending.rt without its contracts, written by rust/erase: change that file.

//! The end of a long input, over any kernel: the last block, the last 64 bytes and the merge.

use super::Algorithm;
use super::word::words;
use crate::erased::twox_core::xxhash3::primes::{PRIME64_1, PRIME64_2};
use crate::erased::twox_core::xxhash3::stripes::accumulate_within;
use crate::erased::twox_core::xxhash3::{Secret, Vector, avalanche, fold};
use super::simd::u64x4;
use crate::erased::twox_words::words::IntoU128;

impl<V: Vector> Algorithm<V> {
    /// Returns the 64-bit value of an input of `len` bytes: accumulates the last block's stripes except its last, from
    /// the secret's start on, then the last 64 bytes, and merges the accumulators.
    ///
    /// The caller proves that the block isn't empty and that the secret has places for its stripes.
    #[inline(always)]
    pub fn finalize_64(
        &self,
        acc: [u64; 8],
        last_block: &[u8],
        last_stripe: &[u8; 64],
        secret: Secret<'_>,
        len: u64,
    ) -> u64 {
        let acc = self.last_round(acc, last_block, last_stripe, secret);
        let init = len.wrapping_mul(PRIME64_1);
        final_merge(acc, init, secret.final_secret(), secret)
    }

    /// Returns the 128-bit value in the same way. The low half is the 64-bit value, and the high half merges the same
    /// accumulators under other bytes of the secret.
    #[inline(always)]
    pub fn finalize_128(
        &self,
        acc: [u64; 8],
        last_block: &[u8],
        last_stripe: &[u8; 64],
        secret: Secret<'_>,
        len: u64,
    ) -> u128 {
        let acc = self.last_round(acc, last_block, last_stripe, secret);
        let low = len.wrapping_mul(PRIME64_1);
        let low = final_merge(acc, low, secret.final_secret(), secret);
        let high = !len.wrapping_mul(PRIME64_2);
        let high = final_merge(acc, high, secret.for_128().final_secret(), secret);
        from_halves(high, low)
    }

    // Returns the accumulators after the last block's stripes except its last, and then the last 64 bytes.
    #[inline(always)]
    fn last_round(
        &self,
        acc: [u64; 8],
        last_block: &[u8],
        last_stripe: &[u8; 64],
        secret: Secret<'_>,
    ) -> [u64; 8] {
        let count = (last_block.len() - 1) / 64;
        let mut acc = accumulate_within(acc, self.0, last_block, count, 0, secret);
        self.0.accumulate(
            &mut acc,
            last_stripe,
            secret.last_stripe_secret_better_name(),
        );
        acc
    }
}

// Merges the accumulators under 64 bytes of the secret: the sum of the folds of neighbours, mixed. They stay in
// registers, four at a time. Every secret passes the test between the halves: without it, LLVM adds the four folds as a
// vector, which costs more than it saves.
#[inline(always)]
fn final_merge(acc: [u64; 8], init: u64, key: &[u8; 64], secret: Secret<'_>) -> u64 {
    let [a, b, c, d, e, f, g, h] = acc;
    let front = add_folds(init, keyed_four([a, b, c, d], words(key, 0)));
    if !secret.is_valid() {
        return front;
    }
    avalanche(add_folds(front, keyed_four([e, f, g, h], words(key, 4))))
}

// Returns four accumulators under their keys.
#[inline(always)]
fn keyed_four(acc: [u64; 4], keys: [u64; 4]) -> [u64; 4] {
    let [a0, a1, a2, a3] = acc;
    let [k0, k1, k2, k3] = keys;
    let keys = u64x4::from_array([k0, k1, k2, k3]);
    (u64x4::from_array([a0, a1, a2, a3]) ^ keys).to_array()
}

// Adds the folds of two pairs of neighbours to the sum.
#[inline(always)]
fn add_folds(sum: u64, keyed: [u64; 4]) -> u64 {
    let [a, b, c, d] = keyed;
    sum.wrapping_add(fold(a, b)).wrapping_add(fold(c, d))
}

// Joins the halves of a 128-bit value.
#[inline(always)]
fn from_halves(high: u64, low: u64) -> u128 {
    (high.into_u128() << 64) + low.into_u128()
}
