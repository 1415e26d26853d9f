// SPDX-License-Identifier: MIT
// crates/twox_core/src/width_128.rt without its contracts, written by rust/erase: change that file.

//! XXH3 128-bit: the ranges of lengths, the finalizer, and the one-shots of every length.

use crate::erased::twox_core::xxhash3::primes::{PRIME_MX2, PRIME32_2, PRIME64_1, PRIME64_2, PRIME64_4};
use crate::erased::twox_core::xxhash3::{
    Algorithm, AnyLength, CUTOFF, DEFAULT_SECRET_LENGTH, DEFAULT_SEED, DefaultLength, Derived,
    Finalize, Kernel, MANY_BYTES, Secret, Vector, avalanche, avalanche_xxh64, chunks_17_to_128,
    default_secret, derived_secret, expect_middle, full_product, impl_1_to_3_bytes_combined,
    is_widened, mix_step, oneshot_widened, pairs_of_u64_bytes, to_u64s,
};
use crate::erased::twox_words::words::{Halves, IntoU64, IntoU128, bp_as_chunks, u32_at, u64_at};

/// Finalizes 128-bit values, of short and of long inputs.
#[derive(Clone, Copy)]
pub struct Finalize128;

impl Finalize for Finalize128 {
    type Output = u128;

    #[inline(always)]
    fn small(&self, secret: Secret<'_>, seed: u64, input: &[u8]) -> u128 {
        oneshot_short(secret, seed, input).into_u128()
    }

    #[inline(always)]
    fn large(
        &self,
        v: impl Vector,
        acc: [u64; 8],
        last_block: &[u8],
        last_stripe: &[u8; 64],
        secret: Secret<'_>,
        len: u64,
    ) -> u128 {
        Algorithm(v).finalize_128(acc, last_block, last_stripe, secret, len)
    }
}

/// Returns the value with the default secret and the seed 0.
///
/// Each range above 64 bytes is a separate call: they need more registers than are free, so shorter inputs save none.
#[inline(always)]
pub fn oneshot(input: &[u8]) -> Wide {
    if input.len() <= 16 {
        impl_0_to_16_bytes(default_secret(), DEFAULT_SEED, input)
    } else if input.len() <= 64 {
        impl_17_to_64_bytes(default_secret(), DEFAULT_SEED, input)
    } else if input.len() <= 128 {
        oneshot_65_to_128(input)
    } else if input.len() <= CUTOFF {
        oneshot_129_to_240(input)
    } else {
        oneshot_long(default_secret(), input)
    }
}

#[inline(never)]
fn oneshot_65_to_128(input: &[u8]) -> Wide {
    impl_65_to_128_bytes(default_secret(), DEFAULT_SEED, input)
}

#[inline(never)]
fn oneshot_129_to_240(input: &[u8]) -> Wide {
    impl_129_to_240_bytes(default_secret(), DEFAULT_SEED, input)
}

/// Returns the value with a seed: up to 240 bytes with the default secret, above that with the one derived from the
/// seed.
#[inline(always)]
pub fn oneshot_with_seed(seed: u64, input: &[u8]) -> Wide {
    if input.len() <= 16 {
        impl_0_to_16_bytes(default_secret(), seed, input)
    } else if input.len() <= 64 {
        impl_17_to_64_bytes(default_secret(), seed, input)
    } else if input.len() <= 128 {
        oneshot_with_seed_65_to_128(input, seed)
    } else if input.len() <= CUTOFF {
        oneshot_with_seed_129_to_240(input, seed)
    } else {
        oneshot_long_with_seed(seed, input)
    }
}

// The seed comes last, as in C's calls, so no register moves on the way.
#[inline(never)]
fn oneshot_with_seed_65_to_128(input: &[u8], seed: u64) -> Wide {
    impl_65_to_128_bytes(default_secret(), seed, input)
}

#[inline(never)]
fn oneshot_with_seed_129_to_240(input: &[u8], seed: u64) -> Wide {
    impl_129_to_240_bytes(default_secret(), seed, input)
}

/// Returns the value with a secret and the seed 0.
#[inline(always)]
pub fn oneshot_with_secret(secret: Secret<'_>, input: &[u8]) -> Wide {
    if input.len() <= 16 {
        impl_0_to_16_bytes(secret, DEFAULT_SEED, input)
    } else if input.len() <= 64 {
        impl_17_to_64_bytes(secret, DEFAULT_SEED, input)
    } else if input.len() <= 128 {
        oneshot_with_secret_65_to_128(input, secret)
    } else if input.len() <= CUTOFF {
        oneshot_with_secret_129_to_240(input, secret)
    } else {
        oneshot_long(secret, input)
    }
}

#[inline(never)]
fn oneshot_with_secret_65_to_128(input: &[u8], secret: Secret<'_>) -> Wide {
    impl_65_to_128_bytes(secret, DEFAULT_SEED, input)
}

#[inline(never)]
fn oneshot_with_secret_129_to_240(input: &[u8], secret: Secret<'_>) -> Wide {
    impl_129_to_240_bytes(secret, DEFAULT_SEED, input)
}

/// Returns the value above 240 bytes, with a secret. No seed is used, so it is the value for every seed.
///
/// A separate call, so that short inputs don't pay for the stack frame of long ones. If the secret's length is known,
/// nothing is divided or tested for it.
#[inline(never)]
pub fn oneshot_long(secret: Secret<'_>, input: &[u8]) -> Wide {
    crate::kernels::long_128(secret, input)
}

// A tail call, so that the default length keeps no register for the division.
#[inline(never)]
fn oneshot_long_of_any_length(secret: Secret<'_>, input: &[u8]) -> Wide {
    oneshot_above_240::<AnyLength>(secret, input)
}

// Each `Caller` has its own copy of the code: see `Algorithm::oneshot_of`.
#[inline(always)]
fn oneshot_above_240<Caller>(secret: Secret<'_>, input: &[u8]) -> Wide {
    if input.len() < MANY_BYTES {
        let algorithm = Algorithm(Kernel {});
        halves(algorithm.oneshot_of::<Finalize128, Caller, false>(secret, input, Finalize128))
    } else {
        oneshot_many(secret, input)
    }
}

// Hashes many bytes, as a tail call of `oneshot_above_240`, which then keeps no register for them.
#[inline(never)]
fn oneshot_many(secret: Secret<'_>, input: &[u8]) -> Wide {
    let algorithm = Algorithm(Kernel {});
    halves(algorithm.oneshot_of::<Finalize128, AnyLength, true>(secret, input, Finalize128))
}

// Hashes by eight lanes, as another tail call, of `oneshot_long`.
#[inline(never)]
fn oneshot_by_eight_lanes(secret: Secret<'_>, input: &[u8]) -> Wide {
    halves(oneshot_widened(secret, input, Finalize128))
}

// Hashes long inputs with the secret derived from the seed. The seed 0 derives the default one.
#[inline(always)]
fn oneshot_long_with_seed(seed: u64, input: &[u8]) -> Wide {
    if seed == DEFAULT_SEED {
        oneshot_long(default_secret(), input)
    } else if is_widened(input) {
        oneshot_derived_by_eight_lanes(seed, input)
    } else {
        oneshot_long_derived(seed, input)
    }
}

// The derived secret is on the stack. Built in place, it is known to have 192 bytes, so nothing tests that.
#[inline(never)]
fn oneshot_long_derived(seed: u64, input: &[u8]) -> Wide {
    crate::kernels::long_derived_128(seed, input)
}

// Hashes inputs that eight lanes take. A separate function, so that callers with fewer bytes save no register for this
// call.
#[inline(never)]
fn oneshot_derived_by_eight_lanes(seed: u64, input: &[u8]) -> Wide {
    let derived = derived_secret(seed);
    halves(oneshot_widened(Secret::new(&derived).unwrap(), input, Finalize128))
}

/// A 128-bit value as its halves.
///
/// Only the callers join them, so that callers that need the halves, such as the exports for C, can tail call the
/// function that returns them.
#[derive(Clone, Copy)]
#[repr(C)]
pub struct Wide {
    /// The low 64 bits.
    pub low: u64,
    /// The high 64 bits.
    pub high: u64,
}

/// Splits the value into its halves.
#[inline(always)]
pub fn halves(value: u128) -> Wide {
    Wide {
        low: value.lower_half(),
        high: value.upper_half(),
    }
}

impl IntoU128 for Wide {
    #[inline(always)]
    fn into_u128(self) -> u128 {
        self.high.into_u128() << 64 | self.low.into_u128()
    }
}

/// Returns the value up to 240 bytes, with a secret and a seed.
#[inline(always)]
pub fn oneshot_short(secret: Secret<'_>, seed: u64, input: &[u8]) -> Wide {
    if input.len() <= 16 {
        impl_0_to_16_bytes(secret, seed, input)
    } else if input.len() <= 64 {
        impl_17_to_64_bytes(secret, seed, input)
    } else if input.len() <= 128 {
        impl_65_to_128_bytes(secret, seed, input)
    } else {
        short_129_to_240(secret, seed, input)
    }
}

#[inline(never)]
fn short_129_to_240(secret: Secret<'_>, seed: u64, input: &[u8]) -> Wide {
    impl_129_to_240_bytes(secret, seed, input)
}

#[inline(always)]
fn impl_0_to_16_bytes(secret: Secret<'_>, seed: u64, input: &[u8]) -> Wide {
    if input.len() >= 9 {
        impl_9_to_16_bytes(secret, seed, input)
    } else if input.len() >= 4 {
        impl_4_to_8_bytes(secret, seed, input)
    } else if input.len() >= 1 {
        impl_1_to_3_bytes(secret, seed, input)
    } else {
        impl_0_bytes(secret, seed)
    }
}

#[inline(always)]
fn impl_0_bytes(secret: Secret<'_>, seed: u64) -> Wide {
    let words = secret.for_128().words_for_0();
    let low = avalanche_xxh64(seed ^ words[0] ^ words[1]);
    let high = avalanche_xxh64(seed ^ words[2] ^ words[3]);
    Wide { low, high }
}

#[inline(always)]
fn impl_1_to_3_bytes(secret: Secret<'_>, seed: u64, input: &[u8]) -> Wide {
    let combined_bytes = impl_1_to_3_bytes_combined(input);
    let words = secret.for_128().words_for_1_to_3();
    let low_key = (words[0] ^ words[1]).into_u64();
    let high_key = (words[2] ^ words[3]).into_u64();
    let low = low_key.wrapping_add(seed) ^ combined_bytes.into_u64();
    let high = high_key.wrapping_sub(seed) ^ combined_bytes.swap_bytes().rotate_left(13).into_u64();
    Wide {
        low: avalanche_xxh64(low),
        high: avalanche_xxh64(high),
    }
}

#[inline(always)]
fn impl_4_to_8_bytes(secret: Secret<'_>, seed: u64, input: &[u8]) -> Wide {
    let first = u32_at(input, 0);
    let last = u32_at(input, input.len() - 4);
    let mixed_seed = seed ^ (seed.lower_half().swap_bytes().into_u64() << 32);
    let words = secret.for_128().words_for_4_to_8();
    let combined_bytes = first.into_u64() | (last.into_u64() << 32);
    let lhs = (words[0] ^ words[1]).wrapping_add(mixed_seed) ^ combined_bytes;
    let rhs = PRIME64_1.wrapping_add(input.len().into_u64() << 2);
    let product = full_product(lhs, rhs);

    let high = product.upper_half().wrapping_add(product.lower_half() << 1);
    let low = product.lower_half() ^ (high >> 3);
    let low = low ^ (low >> 35);
    let low = low.wrapping_mul(PRIME_MX2);
    Wide {
        low: low ^ (low >> 28),
        high: avalanche(high),
    }
}

#[inline(always)]
fn impl_9_to_16_bytes(secret: Secret<'_>, seed: u64, input: &[u8]) -> Wide {
    let first = u64_at(input, 0);
    let last = u64_at(input, input.len() - 8);
    let words = secret.for_128().words_for_9_to_16();
    let one = (words[0] ^ words[1]).wrapping_sub(seed) ^ first ^ last;
    let two = (words[2] ^ words[3]).wrapping_add(seed) ^ last;
    let product = full_product(one, PRIME64_1);
    let low = product
        .lower_half()
        .wrapping_add((input.len() - 1).into_u64() << 54);
    // The lower half of `two` counts times the prime, and the upper half unmultiplied.
    let high = product
        .upper_half()
        .wrapping_add(two)
        .wrapping_add(two.lower_half().into_u64().wrapping_mul(PRIME32_2 - 1));
    let low = low ^ high.swap_bytes();
    let product = Wide { low, high }
        .into_u128()
        .wrapping_mul(PRIME64_2.into_u128());
    Wide {
        low: avalanche(product.lower_half()),
        high: avalanche(product.upper_half()),
    }
}

// The two accumulators for 17 to 240 bytes.
#[derive(Clone, Copy)]
struct Accumulators {
    first: u64,
    second: u64,
}

// Returns the accumulators before the first chunk.
#[inline(always)]
fn initial_accumulators(input: &[u8]) -> Accumulators {
    Accumulators {
        first: input.len().into_u64().wrapping_mul(PRIME64_1),
        second: 0,
    }
}

// Returns an accumulator after the 16 bytes `own` under the secret's, and then the words of the 16 bytes `other`.
#[inline(always)]
fn accumulator_step(
    accumulator: u64,
    own: &[u8; 16],
    words: &[u8; 16],
    other: &[u8; 16],
    seed: u64,
) -> u64 {
    let other = to_u64s(other);
    accumulator.wrapping_add(mix_step(own, words, seed)) ^ other[0].wrapping_add(other[1])
}

// Returns the accumulators after chunk `c` from the front and from the back, if there is one.
#[inline(always)]
fn mix_two_chunks(
    accumulators: Accumulators,
    secret: Secret<'_>,
    seed: u64,
    input: &[u8],
    c: usize,
) -> Accumulators {
    if input.len() <= 32 * c {
        return accumulators;
    }
    let (forward, backward, words) = chunks_17_to_128(secret, input, c);
    Accumulators {
        first: accumulator_step(accumulators.first, forward, &words[0], backward, seed),
        second: accumulator_step(accumulators.second, backward, &words[1], forward, seed),
    }
}

// Up to 64 bytes have only the last two steps.
#[inline(always)]
fn impl_17_to_64_bytes(secret: Secret<'_>, seed: u64, input: &[u8]) -> Wide {
    let accumulators = mix_two_chunks(initial_accumulators(input), secret, seed, input, 1);
    mix_last(accumulators, secret, seed, input)
}

#[inline(always)]
fn impl_65_to_128_bytes(secret: Secret<'_>, seed: u64, input: &[u8]) -> Wide {
    let accumulators = mix_above_32(initial_accumulators(input), secret, seed, input);
    mix_last(accumulators, secret, seed, input)
}

// Returns the accumulators after all steps except the last, from those before the first.
#[inline(always)]
fn mix_above_32(initial: Accumulators, secret: Secret<'_>, seed: u64, input: &[u8]) -> Accumulators {
    let mut accumulators = initial;
    for step in 0..3 {
        accumulators = mix_two_chunks(accumulators, secret, seed, input, 3 - step);
    }
    accumulators
}

// Returns the value from the accumulators before the last step, which takes the chunks at both ends.
#[inline(always)]
fn mix_last(accumulators: Accumulators, secret: Secret<'_>, seed: u64, input: &[u8]) -> Wide {
    let accumulators = mix_two_chunks(accumulators, secret, seed, input, 0);
    finalize_medium(accumulators, input.len().into_u64(), seed)
}

// Inlined into a function for each kind of call, since a known seed of 0 saves two steps in each product.
#[inline(always)]
fn impl_129_to_240_bytes(secret: Secret<'_>, seed: u64, input: &[u8]) -> Wide {
    expect_middle(input, secret);
    let pairs = pairs_of_u64_bytes(input);
    let Accumulators {
        mut first,
        mut second,
    } = initial_accumulators(input);

    let words = secret.for_128().words_for_129_to_240_part1();
    'early: for p in 0..4 {
        first = accumulator_step(first, &pairs[p][0], &words[p][0], &pairs[p][1], seed);
        second = accumulator_step(second, &pairs[p][1], &words[p][1], &pairs[p][0], seed);
    }
    first = avalanche(first);
    second = avalanche(second);

    let words = secret.for_128().words_for_129_to_240_part2();
    'later: for p in 0..pairs.len() - 4 {
        first = accumulator_step(
            first,
            &pairs[4 + p][0],
            &words[p][0],
            &pairs[4 + p][1],
            seed,
        );
        second = accumulator_step(
            second,
            &pairs[4 + p][1],
            &words[p][1],
            &pairs[4 + p][0],
            seed,
        );
    }

    // the halves of the last 32 bytes are swapped, and the seed is negated
    let (_, tail) = input.split_at(input.len() - 32);
    let (tail, _) = bp_as_chunks(tail);
    let words = secret.for_128().words_for_129_to_240_part3();
    let negated = seed.wrapping_neg();
    let accumulators = Accumulators {
        first: accumulator_step(first, &tail[1], &words[0], &tail[0], negated),
        second: accumulator_step(second, &tail[0], &words[1], &tail[1], negated),
    };
    finalize_medium(accumulators, input.len().into_u64(), seed)
}

// Returns the value of the accumulators.
#[inline(always)]
fn finalize_medium(accumulators: Accumulators, input_len: u64, seed: u64) -> Wide {
    let low = accumulators.first.wrapping_add(accumulators.second);
    let high = accumulators
        .first
        .wrapping_mul(PRIME64_1)
        .wrapping_add(accumulators.second.wrapping_mul(PRIME64_4))
        .wrapping_add(input_len.wrapping_sub(seed).wrapping_mul(PRIME64_2));
    Wide {
        low: avalanche(low),
        high: avalanche(high).wrapping_neg(),
    }
}
