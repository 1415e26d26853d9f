// SPDX-License-Identifier: MIT
// crates/twox_core/src/xxhash3/vector.rt without its contracts, written by rust/erase: change that file.

//! The trait of kernels: the xxHash specification, "XXH3 algorithm description (for large inputs)", steps 1 and 2.

use super::parts::array_at;
use super::primes::{
    PRIME32_1, PRIME32_2, PRIME32_3, PRIME64_1, PRIME64_2, PRIME64_3, PRIME64_4, PRIME64_5,
};

/// A kernel: the two operations of XXH3 on its eight accumulators, and optionally four of the second at once. All
/// kernels compute the same.
pub trait Vector: Copy {
    /// Scrambles the accumulators under the secret's last 64 bytes.
    fn round_scramble(&self, acc: &mut [u64; 8], secret_end: &[u8; 64]);

    /// Accumulates a stripe, under 64 bytes of the secret.
    fn accumulate(&self, acc: &mut [u64; 8], stripe: &[u8; 64], secret: &[u8; 64]);

    /// Accumulates four stripes one after another, each under the 64 bytes that begin 8 bytes after those of the one
    /// before.
    #[inline(always)]
    fn accumulate_four_stripes(&self, acc: &mut [u64; 8], stripes: &[u8; 256], secret: &[u8; 88]) {
        self.accumulate(acc, array_at(stripes, 0), array_at(secret, 0));
        self.accumulate(acc, array_at(stripes, 64), array_at(secret, 8));
        self.accumulate(acc, array_at(stripes, 128), array_at(secret, 16));
        self.accumulate(acc, array_at(stripes, 192), array_at(secret, 24));
    }

    /// True if `lanes8` takes many stripes instead of this kernel. Changes only the time.
    #[inline(always)]
    fn is_widened(&self) -> bool {
        false
    }
}

/// Returns the accumulators before the first stripe.
pub const INITIAL_ACCUMULATORS: [u64; 8] = [
    PRIME32_3, PRIME64_1, PRIME64_2, PRIME64_3, PRIME64_4, PRIME32_2, PRIME64_5, PRIME32_1,
];
