// SPDX-License-Identifier: MIT
// crates/twox_core/src/xxhash3/mixing.rt without its contracts, written by rust/erase: change that file.

//! The mixing steps: the xxHash specification, "XXH3 algorithm overview".

use super::primes::{PRIME_MX1, PRIME64_2, PRIME64_3};
use crate::erased::twox_words::words::{Halves, IntoU32, IntoU128, u64_at};

/// Combines the last byte, the number of bytes, the first byte and the middle one, from the low byte up: the xxHash
/// specification, "XXH3 algorithm description (for small inputs)", 1 to 3 bytes.
///
/// The caller proves that there are 1 to 3 bytes.
#[inline(always)]
pub fn impl_1_to_3_bytes_combined(input: &[u8]) -> u32 {
    let input_length = input.len() as u8;
    input[input.len() - 1].into_u32()
        | input_length.into_u32() << 8
        | input[0].into_u32() << 16
        | input[input.len() >> 1].into_u32() << 24
}

/// Mixes the 16 bytes with 16 bytes of the secret and the seed: the xxHash specification, "XXH3 algorithm overview",
/// mixing operation.
#[inline(always)]
pub fn mix_step(bytes: &[u8; 16], secret: &[u8; 16], seed: u64) -> u64 {
    let [first, second] = to_u64s(bytes);
    mix_words(first, second, secret, seed)
}

/// Does one mixing step of 16 bytes, given as two words.
#[inline(always)]
pub fn mix_words(first: u64, second: u64, secret: &[u8; 16], seed: u64) -> u64 {
    let words = to_u64s(secret);
    let a = first ^ words[0].wrapping_add(seed);
    let b = second ^ words[1].wrapping_sub(seed);
    fold(a, b)
}

/// Returns the full product.
#[inline(always)]
pub fn full_product(a: u64, b: u64) -> u128 {
    a.into_u128() * b.into_u128()
}

/// Returns the low half of the full product xor its high half.
#[inline(always)]
pub fn fold(a: u64, b: u64) -> u64 {
    let product = full_product(a, b);
    product.lower_half() ^ product.upper_half()
}

/// Returns the eight-byte words at 0 and 8.
#[inline(always)]
pub fn to_u64s(bytes: &[u8; 16]) -> [u64; 2] {
    [u64_at(bytes, 0), u64_at(bytes, 8)]
}

/// Does the final mixing step of XXH3: the xxHash specification, "XXH3 algorithm overview".
#[inline(always)]
pub fn avalanche(x: u64) -> u64 {
    let x = x ^ (x >> 37);
    let x = x.wrapping_mul(PRIME_MX1);
    x ^ (x >> 32)
}

/// Does the last step of XXH64, with which XXH3 mixes up to 3 bytes.
#[inline(always)]
pub fn avalanche_xxh64(x: u64) -> u64 {
    let x = x ^ (x >> 33);
    let x = x.wrapping_mul(PRIME64_2);
    let x = x ^ (x >> 29);
    let x = x.wrapping_mul(PRIME64_3);
    x ^ (x >> 32)
}
