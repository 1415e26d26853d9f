// SPDX-License-Identifier: MIT
// crates/twox_core/src/width_64.rt without its contracts, written by rust/erase: change that file.

//! XXH3 64-bit: the ranges of lengths, the finalizer, and the one-shots of every length.

use crate::erased::twox_core::xxhash3::primes::{PRIME_MX2, PRIME64_1};
use crate::erased::twox_core::xxhash3::{
    Algorithm, AnyLength, CUTOFF, DEFAULT_SECRET_LENGTH, DEFAULT_SEED, DefaultLength, Derived,
    Finalize, Kernel, MANY_BYTES, Secret, Vector, avalanche, avalanche_xxh64, chunks_17_to_128,
    default_secret, derived_secret, expect_middle, fold, impl_1_to_3_bytes_combined, is_widened,
    mix_step, mix_words, oneshot_widened,
};
use crate::erased::twox_words::barriers::hidden_u64;
use crate::erased::twox_words::words::{Halves, IntoU64, u32_at, u64_at};

/// Finalizes 64-bit values, of short and of long inputs.
#[derive(Clone, Copy)]
pub struct Finalize64;

impl Finalize for Finalize64 {
    type Output = u64;

    #[inline(always)]
    fn small(&self, secret: Secret<'_>, seed: u64, input: &[u8]) -> u64 {
        oneshot_short(secret, seed, input)
    }

    #[inline(always)]
    fn large(
        &self,
        v: impl Vector,
        acc: [u64; 8],
        last_block: &[u8],
        last_stripe: &[u8; 64],
        secret: Secret<'_>,
        len: u64,
    ) -> u64 {
        Algorithm(v).finalize_64(acc, last_block, last_stripe, secret, len)
    }
}

/// Returns the value with the default secret and the seed 0.
#[inline(always)]
pub fn oneshot(input: &[u8]) -> u64 {
    oneshot_with_secret(default_secret(), input)
}

/// Returns the value with a secret and the seed 0.
///
/// The shortest inputs come first, so that they don't pay for the stack frame of longer ones. Each range is tested
/// here, so that no length is compared with 240 before 128.
#[inline(always)]
pub fn oneshot_with_secret(secret: Secret<'_>, input: &[u8]) -> u64 {
    if input.len() <= 16 {
        impl_0_to_16_bytes(secret, DEFAULT_SEED, input)
    } else if input.len() <= 128 {
        impl_17_to_128_bytes(secret, DEFAULT_SEED, input)
    } else if input.len() <= CUTOFF {
        impl_129_to_240_bytes(secret, DEFAULT_SEED, input, &input[8..])
    } else {
        oneshot_long(secret, input)
    }
}

/// Returns the value with a seed: up to 240 bytes with the default secret, above that with the one derived from the
/// seed.
///
/// The shortest inputs come first, so that they don't pay for the stack frame of longer ones.
#[inline(always)]
pub fn oneshot_with_seed(seed: u64, input: &[u8]) -> u64 {
    if input.len() <= 16 {
        impl_0_to_16_bytes(default_secret(), seed, input)
    } else if input.len() <= 128 {
        impl_17_to_128_bytes(default_secret(), seed, input)
    } else if input.len() <= CUTOFF {
        impl_129_to_240_bytes(default_secret(), seed, input, &input[8..])
    } else {
        oneshot_long_with_seed(seed, input)
    }
}

/// Returns the value above 240 bytes, with a secret. No seed is used, so it is the value for every seed.
///
/// A separate call, so that short inputs don't pay for the stack frame of long ones. If the secret's length is known,
/// nothing is divided or tested for it.
#[inline(never)]
pub fn oneshot_long(secret: Secret<'_>, input: &[u8]) -> u64 {
    crate::kernels::long_64(secret, input)
}

// A tail call, so that the default length keeps no register for the division.
#[inline(never)]
fn oneshot_long_of_any_length(secret: Secret<'_>, input: &[u8]) -> u64 {
    oneshot_above_240::<AnyLength>(secret, input)
}

// Each `Caller` has its own copy of the code: see `Algorithm::oneshot_of`.
#[inline(always)]
fn oneshot_above_240<Caller>(secret: Secret<'_>, input: &[u8]) -> u64 {
    if input.len() < MANY_BYTES {
        Algorithm(Kernel {}).oneshot_of::<Finalize64, Caller, false>(secret, input, Finalize64)
    } else {
        oneshot_many(secret, input)
    }
}

// Hashes many bytes, as a tail call of `oneshot_above_240`, which then keeps no register for them.
#[inline(never)]
fn oneshot_many(secret: Secret<'_>, input: &[u8]) -> u64 {
    Algorithm(Kernel {}).oneshot_of::<Finalize64, AnyLength, true>(secret, input, Finalize64)
}

// Hashes by eight lanes, as another tail call, of `oneshot_long`.
#[inline(never)]
fn oneshot_by_eight_lanes(secret: Secret<'_>, input: &[u8]) -> u64 {
    oneshot_widened(secret, input, Finalize64)
}

// Hashes long inputs with the secret derived from the seed. The seed 0 derives the default one.
#[inline(always)]
fn oneshot_long_with_seed(seed: u64, input: &[u8]) -> u64 {
    if seed == DEFAULT_SEED {
        oneshot_long(default_secret(), input)
    } else if is_widened(input) {
        oneshot_derived_by_eight_lanes(seed, input)
    } else {
        oneshot_long_derived(seed, input)
    }
}

// The derived secret is on the stack. Built in place, it is known to have 192 bytes, so nothing tests that.
#[inline(never)]
fn oneshot_long_derived(seed: u64, input: &[u8]) -> u64 {
    crate::kernels::long_derived_64(seed, input)
}

// Hashes inputs that eight lanes take. A separate function, so that callers with fewer bytes save no register for this
// call.
#[inline(never)]
fn oneshot_derived_by_eight_lanes(seed: u64, input: &[u8]) -> u64 {
    let derived = derived_secret(seed);
    oneshot_widened(Secret::new(&derived).unwrap(), input, Finalize64)
}

/// Returns the value up to 240 bytes, with a secret and a seed.
#[inline(always)]
pub fn oneshot_short(secret: Secret<'_>, seed: u64, input: &[u8]) -> u64 {
    if input.len() <= 16 {
        impl_0_to_16_bytes(secret, seed, input)
    } else if input.len() <= 128 {
        impl_17_to_128_bytes(secret, seed, input)
    } else {
        impl_129_to_240_bytes(secret, seed, input, &input[8..])
    }
}

#[inline(always)]
fn impl_0_to_16_bytes(secret: Secret<'_>, seed: u64, input: &[u8]) -> u64 {
    if input.len() >= 9 {
        impl_9_to_16_bytes(secret, seed, input)
    } else if input.len() >= 4 {
        impl_4_to_8_bytes(secret, seed, input)
    } else if input.len() >= 1 {
        impl_1_to_3_bytes(secret, seed, input)
    } else {
        impl_0_bytes(secret, seed)
    }
}

#[inline(always)]
fn impl_0_bytes(secret: Secret<'_>, seed: u64) -> u64 {
    let words = secret.for_64().words_for_0();
    avalanche_xxh64(seed ^ words[0] ^ words[1])
}

#[inline(always)]
fn impl_1_to_3_bytes(secret: Secret<'_>, seed: u64, input: &[u8]) -> u64 {
    let words = secret.for_64().words_for_1_to_3();
    let key = (words[0] ^ words[1]).into_u64();
    avalanche_xxh64(key.wrapping_add(seed) ^ impl_1_to_3_bytes_combined(input).into_u64())
}

#[inline(always)]
fn impl_4_to_8_bytes(secret: Secret<'_>, seed: u64, input: &[u8]) -> u64 {
    let first = u32_at(input, 0);
    let last = u32_at(input, input.len() - 4);
    let mixed_seed = seed ^ (seed.lower_half().swap_bytes().into_u64() << 32);
    let words = secret.for_64().words_for_4_to_8();
    let combined_bytes = last.into_u64() | (first.into_u64() << 32);
    let value = (words[0] ^ words[1]).wrapping_sub(mixed_seed) ^ combined_bytes;
    strong(value, input.len().into_u64())
}

// Does the stronger mixing of 4 to 8 bytes, with their number.
#[inline(always)]
fn strong(value: u64, len: u64) -> u64 {
    let value = value ^ value.rotate_left(49) ^ value.rotate_left(24);
    let value = value.wrapping_mul(PRIME_MX2);
    let value = value ^ (value >> 35).wrapping_add(len);
    let value = value.wrapping_mul(PRIME_MX2);
    value ^ (value >> 28)
}

#[inline(always)]
fn impl_9_to_16_bytes(secret: Secret<'_>, seed: u64, input: &[u8]) -> u64 {
    let first = u64_at(input, 0);
    let last = u64_at(input, input.len() - 8);
    let words = secret.for_64().words_for_9_to_16();
    let low = (words[0] ^ words[1]).wrapping_add(seed) ^ first;
    let high = (words[2] ^ words[3]).wrapping_sub(seed) ^ last;
    let len = input.len().into_u64();
    avalanche(
        len.wrapping_add(low.swap_bytes())
            .wrapping_add(high)
            .wrapping_add(fold(low, high)),
    )
}

#[inline(always)]
fn impl_17_to_128_bytes(secret: Secret<'_>, seed: u64, input: &[u8]) -> u64 {
    avalanche(sum_17_to_128(secret, seed, input))
}

// No loop, so that the secret's words are constants of the code for the default secret.
#[inline(always)]
fn sum_17_to_128(secret: Secret<'_>, seed: u64, input: &[u8]) -> u64 {
    let sum = input.len().into_u64().wrapping_mul(PRIME64_1);
    let sum = add_both_ends(sum, secret, seed, input, 0);
    if input.len() <= 32 {
        return sum;
    }
    let sum = add_both_ends(sum, secret, seed, input, 1);
    if input.len() <= 64 {
        return sum;
    }
    let sum = add_both_ends(sum, secret, seed, input, 2);
    if input.len() <= 96 {
        return sum;
    }
    add_both_ends(sum, secret, seed, input, 3)
}

// Adds step `c` to the sum of the first `c` steps: chunk `c` from the front and from the back.
#[inline(always)]
fn add_both_ends(sum: u64, secret: Secret<'_>, seed: u64, input: &[u8], c: usize) -> u64 {
    let (forward, backward, words) = chunks_17_to_128(secret, input, c);
    let sum = sum.wrapping_add(mix_step(forward, &words[0], seed));
    sum.wrapping_add(mix_step(backward, &words[1], seed))
}

// Mixes the 16 bytes at `i` with 16 bytes of the secret. The second word is read from `from_8`.
#[inline(always)]
fn mix_at(input: &[u8], from_8: &[u8], i: usize, words: &[u8; 16], seed: u64) -> u64 {
    mix_words(u64_at(input, i), second_word(input, from_8, i), words, seed)
}

// Returns the second word of the 16 bytes at `i`, read from `from_8`.
#[inline(always)]
fn second_word(input: &[u8], from_8: &[u8], i: usize) -> u64 {
    crate::rattle::second_word(input, from_8, i)
}

// `from_8` is the input from byte 8 on. In its own function LLVM can't see that the two words of a chunk are adjacent;
// it would make vectors of them, and taking the words out again costs more than it saves.
#[inline]
fn impl_129_to_240_bytes(secret: Secret<'_>, seed: u64, input: &[u8], from_8: &[u8]) -> u64 {
    expect_middle(input, secret);
    let mut acc = input.len().into_u64().wrapping_mul(PRIME64_1);

    let words = secret.for_64().words_for_129_to_240_part1();
    'early: for c in 0..8 {
        acc = hidden_u64(acc.wrapping_add(mix_at(input, from_8, 16 * c, &words[c], seed)));
    }
    acc = avalanche(acc);

    // LLVM knows this number of iterations, so it doesn't make vectors of them either.
    let words = secret.for_64().words_for_129_to_240_part2();
    'later: for c in 0..7 {
        if input.len() >= 144 + 16 * c {
            let sum = acc.wrapping_add(mix_at(input, from_8, 128 + 16 * c, &words[c], seed));
            acc = hidden_u64(sum);
        }
    }

    let words = secret.for_64().words_for_129_to_240_part3();
    acc = acc.wrapping_add(mix_at(input, from_8, input.len() - 16, words, seed));
    avalanche(acc)
}
