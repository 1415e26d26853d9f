// SPDX-License-Identifier: MIT
// crates/twox_plain/src/xxhash64/rounds.rt without its contracts, written by rust/erase: change that file.

//! Rounds, last step and one-shot of XXH64: the xxHash specification, "XXH64 algorithm description".

use super::Core;
use crate::erased::twox_plain::words::{IntoU64, u32_at, u64_at};
use crate::erased::twox_words::barriers::hidden_u64;

const PRIME64_1: u64 = 0x9E3779B185EBCA87;

const PRIME64_2: u64 = 0xC2B2AE3D27D4EB4F;

const PRIME64_3: u64 = 0x165667B19E3779F9;

const PRIME64_4: u64 = 0x85EBCA77C2B2AE63;

const PRIME64_5: u64 = 0x27D4EB2F165667C5;

pub(super) const BYTES_IN_STRIPE: usize = 32;

const BYTES_IN_PAIR: usize = 64;

// True for a compiler that makes faster code for a stream whose stripes are added in pairs.
const IN_PAIRS: bool = crate::kernels::IN_PAIRS;

#[inline(always)]
fn round(accumulator: u64, word: u64) -> u64 {
    let sum = accumulator.wrapping_add(word.wrapping_mul(PRIME64_2));
    rotate_left_by_31(sum).wrapping_mul(PRIME64_1)
}

// Separate function that LLVM optimizes first: it then rotates by one instruction. If LLVM sees that a product is
// rotated, it makes two products instead.
#[inline]
fn rotate_left_by_31(x: u64) -> u64 {
    x.rotate_left(31)
}

#[inline(always)]
fn merge_accumulator(value: u64, accumulator: u64) -> u64 {
    (value ^ round(0, accumulator))
        .wrapping_mul(PRIME64_1)
        .wrapping_add(PRIME64_4)
}

#[inline(always)]
fn take_eight(value: u64, word: u64) -> u64 {
    (value ^ round(0, word))
        .rotate_left(27)
        .wrapping_mul(PRIME64_1)
        .wrapping_add(PRIME64_4)
}

#[inline(always)]
fn take_four(value: u64, word: u32) -> u64 {
    (value ^ word.into_u64().wrapping_mul(PRIME64_1))
        .rotate_left(23)
        .wrapping_mul(PRIME64_2)
        .wrapping_add(PRIME64_3)
}

#[inline(always)]
fn take_byte(value: u64, byte: u8) -> u64 {
    (value ^ byte.into_u64().wrapping_mul(PRIME64_5))
        .rotate_left(11)
        .wrapping_mul(PRIME64_1)
}

#[inline(always)]
fn avalanche(mut value: u64) -> u64 {
    value ^= value >> 33;
    value = value.wrapping_mul(PRIME64_2);
    value ^= value >> 29;
    value = value.wrapping_mul(PRIME64_3);
    value ^ (value >> 32)
}

impl Core {
    // Returns the accumulators before the first stripe.
    #[inline(always)]
    pub(super) const fn new(seed: u64) -> Core {
        Core {
            v1: seed.wrapping_add(PRIME64_1).wrapping_add(PRIME64_2),
            v2: seed.wrapping_add(PRIME64_2),
            v3: seed,
            v4: seed.wrapping_sub(PRIME64_1),
        }
    }

    // Adds a stripe.
    #[inline(always)]
    pub(super) fn write(&mut self, stripe: &[u8; BYTES_IN_STRIPE]) {
        self.v1 = round(self.v1, u64_at(stripe, 0));
        self.v2 = round(self.v2, u64_at(stripe, 8));
        self.v3 = round(self.v3, u64_at(stripe, 16));
        self.v4 = round(self.v4, u64_at(stripe, 24));
    }

    // Adds the whole stripes of the input, and returns the bytes after them. The loop keeps the rest and no count, so
    // short inputs have less to do before and after it.
    #[inline(always)]
    pub(super) fn write_many<'d>(&mut self, input: &'d [u8]) -> &'d [u8] {
        let mut rest = input;
        'stripes: while let Some((stripe, after)) = rest.split_first_chunk::<BYTES_IN_STRIPE>() {
            self.write(stripe);
            rest = after;
        }
        rest
    }

    // Adds two stripes. The accumulators are hidden from LLVM, which would make a vector of them, and that is slower.
    #[inline(always)]
    fn write_pair(&mut self, pair: &[u8; BYTES_IN_PAIR]) {
        self.v1 = hidden_u64(round(round(self.v1, u64_at(pair, 0)), u64_at(pair, 32)));
        self.v2 = hidden_u64(round(round(self.v2, u64_at(pair, 8)), u64_at(pair, 40)));
        self.v3 = hidden_u64(round(round(self.v3, u64_at(pair, 16)), u64_at(pair, 48)));
        self.v4 = hidden_u64(round(round(self.v4, u64_at(pair, 24)), u64_at(pair, 56)));
    }

    // Adds the whole pairs of stripes of the input, and returns the bytes after them.
    #[inline(always)]
    fn write_pairs<'d>(&mut self, input: &'d [u8]) -> &'d [u8] {
        let mut rest = input;
        'each_pair: while let Some((pair, after)) = rest.split_first_chunk::<BYTES_IN_PAIR>() {
            self.write_pair(pair);
            rest = after;
        }
        rest
    }

    // Does what `write_many` does, for a stream.
    #[inline(always)]
    pub(super) fn write_of_stream<'d>(&mut self, input: &'d [u8]) -> &'d [u8] {
        if IN_PAIRS {
            self.write_by_pairs(input)
        } else {
            self.write_many(input)
        }
    }

    // Does the same by pairs. Proved by itself, since `IN_PAIRS` is true only in the crate for cargo.
    #[inline(always)]
    fn write_by_pairs<'d>(&mut self, input: &'d [u8]) -> &'d [u8] {
        let after = self.write_pairs(input);
        self.write_many(after)
    }

    // Converges the four accumulators to one value.
    #[inline(always)]
    pub(super) fn finish(&self) -> u64 {
        let value = self
            .v1
            .rotate_left(1)
            .wrapping_add(self.v2.rotate_left(7))
            .wrapping_add(self.v3.rotate_left(12))
            .wrapping_add(self.v4.rotate_left(18));
        let value = merge_accumulator(value, self.v1);
        let value = merge_accumulator(value, self.v2);
        let value = merge_accumulator(value, self.v3);
        merge_accumulator(value, self.v4)
    }
}

// Mixes in the bytes that fill no stripe: eight at a time, then four, then one.
#[inline(always)]
fn after_tail(value: u64, rest: &[u8]) -> u64 {
    let mut value = value;
    'eights: for u in 0..rest.len() / 8 {
        value = take_eight(value, u64_at(rest, u * 8));
    }
    if rest.len() % 8 >= 4 {
        value = take_four(value, u32_at(rest, rest.len() / 8 * 8));
    }
    'bytes: for u in 0..rest.len() % 4 {
        value = take_byte(value, rest[rest.len() / 4 * 4 + u]);
    }
    value
}

// Returns the value from the seed, the counted length, the accumulators and the bytes that fill no stripe.
#[inline(always)]
pub(super) fn finish_with(seed: u64, len: u64, core: &Core, rest: &[u8]) -> u64 {
    let value = if len < BYTES_IN_STRIPE.into_u64() {
        seed.wrapping_add(PRIME64_5)
    } else {
        core.finish()
    };
    avalanche(after_tail(value.wrapping_add(len), rest))
}

#[inline(always)]
pub(super) fn impl_oneshot(seed: u64, input: &[u8]) -> u64 {
    if input.len() < BYTES_IN_STRIPE {
        impl_short(seed, input)
    } else {
        impl_long(seed, input)
    }
}

// Hashes fewer bytes than a stripe. A separate function, so that short inputs don't pay for accumulators.
#[inline(always)]
fn impl_short(seed: u64, input: &[u8]) -> u64 {
    let value = seed
        .wrapping_add(PRIME64_5)
        .wrapping_add(input.len().into_u64());
    avalanche(after_tail(value, input))
}

#[inline(always)]
fn impl_long(seed: u64, input: &[u8]) -> u64 {
    let mut core = Core::new(seed);
    let rest = core.write_many(input);
    // Its length, computed from the input's, shows the compiler that few words are left, so it doesn't unroll the loop.
    let rest = &rest[..input.len() % BYTES_IN_STRIPE];
    finish_with(seed, input.len().into_u64(), &core, rest)
}
