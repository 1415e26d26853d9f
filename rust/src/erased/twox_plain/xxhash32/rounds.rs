// SPDX-License-Identifier: MIT
// crates/twox_plain/src/xxhash32/rounds.rt without its contracts, written by rust/erase: change that file.

//! Rounds, last step and one-shot of XXH32: the xxHash specification, "XXH32 algorithm description".

use super::Core;
use crate::erased::twox_plain::words::{Halves, IntoU32, IntoU64, u32_at, u64_at};
use crate::erased::twox_words::barriers::hidden_u32;

const PRIME32_1: u32 = 0x9E3779B1;

const PRIME32_2: u32 = 0x85EBCA77;

const PRIME32_3: u32 = 0xC2B2AE3D;

const PRIME32_4: u32 = 0x27D4EB2F;

const PRIME32_5: u32 = 0x165667B1;

pub(super) const BYTES_IN_STRIPE: usize = 16;

const STRIPES_IN_BLOCK: usize = 8;

const BYTES_IN_PAIR: usize = 32;

// True for a compiler that keeps the accumulators of a stream in registers, and makes faster code for stripes that are
// added in pairs.
pub(super) const IN_PAIRS: bool = crate::kernels::IN_PAIRS;

const BYTES_IN_BLOCK: usize = 128;

// Minimum number of bytes that are taken by blocks.
pub(super) const BYTES_FOR_BLOCKS: usize = crate::kernels::BYTES_FOR_BLOCKS;

const WORDS_IN_BLOCK: usize = 32;

#[inline(always)]
fn round(accumulator: u32, word: u32) -> u32 {
    add_product(accumulator, word.wrapping_mul(PRIME32_2))
}

// Does the round of a word whose product is known.
#[inline(always)]
fn add_product(accumulator: u32, product: u32) -> u32 {
    accumulator
        .wrapping_add(product)
        .rotate_left(13)
        .wrapping_mul(PRIME32_1)
}

// Does a round with the primes as values that LLVM keeps in registers: as operands they make a loop longer than the
// processor decodes at once.
#[inline(always)]
fn round_by(accumulator: u32, word: u32, prime_1: u32, prime_2: u32) -> u32 {
    accumulator
        .wrapping_add(word.wrapping_mul(prime_2))
        .rotate_left(13)
        .wrapping_mul(prime_1)
}

// Multiplies the words of a block. The products depend on no accumulator, so many are made at once, in vectors, and the
// rounds have half of their multiplications left. A separate call, because the rounds then read each product from
// memory: taking a product out of a vector would cost what the vector saved.
#[inline(never)]
fn products_of_block(block: &[u8; BYTES_IN_BLOCK]) -> [u32; WORDS_IN_BLOCK] {
    let mut products = [0; WORDS_IN_BLOCK];
    'words: for i in 0..WORDS_IN_BLOCK {
        products[i] = u32_at(block, i * 4).wrapping_mul(PRIME32_2);
    }
    products
}

// Returns the word at byte `i + 4`, from the eight bytes before its end, which is one load too. LLVM then doesn't see
// the words of a stripe as a vector: on 64-bit ARM it would make a vector of the accumulators, which is slower.
#[inline(always)]
fn upper_word_at(bytes: &[u8], i: usize) -> u32 {
    u64_at(bytes, i).upper_half()
}

#[inline(always)]
fn take_word(value: u32, word: u32) -> u32 {
    value
        .wrapping_add(word.wrapping_mul(PRIME32_3))
        .rotate_left(17)
        .wrapping_mul(PRIME32_4)
}

#[inline(always)]
fn take_byte(value: u32, byte: u8) -> u32 {
    value
        .wrapping_add(byte.into_u32().wrapping_mul(PRIME32_5))
        .rotate_left(11)
        .wrapping_mul(PRIME32_1)
}

#[inline(always)]
fn avalanche(mut value: u32) -> u32 {
    value ^= value >> 15;
    value = value.wrapping_mul(PRIME32_2);
    value ^= value >> 13;
    value = value.wrapping_mul(PRIME32_3);
    value ^ (value >> 16)
}

impl Core {
    // Returns the accumulators before the first stripe.
    #[inline(always)]
    pub(super) const fn new(seed: u32) -> Core {
        Core {
            v1: seed.wrapping_add(PRIME32_1).wrapping_add(PRIME32_2),
            v2: seed.wrapping_add(PRIME32_2),
            v3: seed,
            v4: seed.wrapping_sub(PRIME32_1),
        }
    }

    // Adds a stripe.
    #[inline(always)]
    pub(super) fn write(&mut self, stripe: &[u8; BYTES_IN_STRIPE]) {
        self.v1 = round(self.v1, u32_at(stripe, 0));
        self.v2 = round(self.v2, upper_word_at(stripe, 0));
        self.v3 = round(self.v3, upper_word_at(stripe, 4));
        self.v4 = round(self.v4, upper_word_at(stripe, 8));
    }

    // Adds a block.
    #[inline(always)]
    fn write_block(&mut self, block: &[u8; BYTES_IN_BLOCK]) {
        let products = products_of_block(block);
        'stripes: for i in 0..STRIPES_IN_BLOCK {
            self.v1 = add_product(self.v1, products[i * 4]);
            self.v2 = add_product(self.v2, products[i * 4 + 1]);
            self.v3 = add_product(self.v3, products[i * 4 + 2]);
            self.v4 = add_product(self.v4, products[i * 4 + 3]);
        }
    }

    // Adds the whole blocks of the input, and returns the bytes after them.
    #[inline(always)]
    fn write_blocks<'d>(&mut self, input: &'d [u8]) -> &'d [u8] {
        crate::kernels::write_blocks_32(self, input)
    }

    // Adds the whole stripes of the input, and returns the bytes after them. The loop keeps the rest and no count, so
    // short inputs have less to do before and after it.
    #[inline(always)]
    fn write_stripes<'d>(&mut self, input: &'d [u8]) -> &'d [u8] {
        let mut rest = input;
        'stripes: while let Some((stripe, after)) = rest.split_first_chunk::<BYTES_IN_STRIPE>() {
            self.write(stripe);
            rest = after;
        }
        rest
    }

    // Adds two stripes. The accumulators are hidden from LLVM, which would make a vector of them, and that is slower.
    #[inline(always)]
    fn write_pair(&mut self, pair: &[u8; BYTES_IN_PAIR], prime_1: u32, prime_2: u32) {
        let v1 = round_by(self.v1, u32_at(pair, 0), prime_1, prime_2);
        let v2 = round_by(self.v2, u32_at(pair, 4), prime_1, prime_2);
        let v3 = round_by(self.v3, u32_at(pair, 8), prime_1, prime_2);
        let v4 = round_by(self.v4, u32_at(pair, 12), prime_1, prime_2);
        self.v1 = hidden_u32(round_by(v1, u32_at(pair, 16), prime_1, prime_2));
        self.v2 = hidden_u32(round_by(v2, u32_at(pair, 20), prime_1, prime_2));
        self.v3 = hidden_u32(round_by(v3, u32_at(pair, 24), prime_1, prime_2));
        self.v4 = hidden_u32(round_by(v4, u32_at(pair, 28), prime_1, prime_2));
    }

    // Adds the whole pairs of stripes of the input, and returns the bytes after them.
    #[inline(always)]
    fn write_pairs<'d>(&mut self, input: &'d [u8]) -> &'d [u8] {
        let prime_1 = hidden_u32(PRIME32_1);
        let prime_2 = hidden_u32(PRIME32_2);
        let mut rest = input;
        'each_pair: while let Some((pair, after)) = rest.split_first_chunk::<BYTES_IN_PAIR>() {
            self.write_pair(pair, prime_1, prime_2);
            rest = after;
        }
        rest
    }

    // Adds the whole stripes of a stream's input, and returns the bytes after them.
    #[inline(always)]
    pub(super) fn write_of_stream<'d>(&mut self, input: &'d [u8]) -> &'d [u8] {
        if IN_PAIRS {
            self.write_by_pairs(input)
        } else {
            self.write_stripes(input)
        }
    }

    // Does the same by pairs. Proved by itself, since `IN_PAIRS` is true only in the crate for cargo.
    #[inline(always)]
    fn write_by_pairs<'d>(&mut self, input: &'d [u8]) -> &'d [u8] {
        let after = self.write_pairs(input);
        self.write_stripes(after)
    }

    // Adds the whole stripes of the input, and returns the bytes after them. With `BLOCKS` it adds whole blocks first.
    #[inline(always)]
    pub(super) fn write_many<'d, const BLOCKS: bool>(&mut self, input: &'d [u8]) -> &'d [u8] {
        if BLOCKS {
            let rest = self.write_blocks(input);
            self.write_stripes(rest)
        } else {
            self.write_stripes(input)
        }
    }

    // Returns the accumulators after the whole stripes of the input, taken by blocks, and the bytes after them. A separate
    // function, so that shorter chunks save no registers for its calls.
    #[inline(never)]
    pub(super) fn after_blocks<'d>(self, input: &'d [u8]) -> (Core, &'d [u8]) {
        let mut core = self;
        let rest = core.write_many::<true>(input);
        (core, rest)
    }

    // Converges the four accumulators to one value.
    #[inline(always)]
    pub(super) fn finish(&self) -> u32 {
        self.v1
            .rotate_left(1)
            .wrapping_add(self.v2.rotate_left(7))
            .wrapping_add(self.v3.rotate_left(12))
            .wrapping_add(self.v4.rotate_left(18))
    }
}

// Mixes in the bytes that fill no stripe: four at a time, then one.
#[inline(always)]
fn after_tail(value: u32, rest: &[u8]) -> u32 {
    let mut value = value;
    'words: for u in 0..rest.len() / 4 {
        value = take_word(value, u32_at(rest, u * 4));
    }
    'bytes: for u in 0..rest.len() % 4 {
        value = take_byte(value, rest[rest.len() / 4 * 4 + u]);
    }
    value
}

// Returns the value from the seed, the counted length (of which it uses the low 32 bits), the accumulators and the
// bytes that fill no stripe.
#[inline(always)]
pub(super) fn finish_with(seed: u32, len: u64, core: &Core, rest: &[u8]) -> u32 {
    let value = if len < BYTES_IN_STRIPE.into_u64() {
        seed.wrapping_add(PRIME32_5)
    } else {
        core.finish()
    };
    avalanche(after_tail(value.wrapping_add(len.lower_half()), rest))
}

#[inline(always)]
pub(super) fn impl_oneshot(seed: u32, input: &[u8]) -> u32 {
    if input.len() < BYTES_IN_STRIPE {
        impl_short(seed, input)
    } else if input.len() < BYTES_FOR_BLOCKS {
        impl_long::<false>(seed, input)
    } else {
        impl_from_128(seed, input)
    }
}

// Hashes fewer bytes than a stripe. A separate function, so that short inputs don't pay for accumulators.
#[inline(always)]
pub(super) fn impl_short(seed: u32, input: &[u8]) -> u32 {
    let value = seed
        .wrapping_add(PRIME32_5)
        .wrapping_add(input.len().into_u64().lower_half());
    avalanche(after_tail(value, input))
}

// Separate function, so that shorter inputs save no registers for its calls.
#[inline(never)]
fn impl_from_128(seed: u32, input: &[u8]) -> u32 {
    impl_long::<true>(seed, input)
}

#[inline(always)]
pub(super) fn impl_long<const BLOCKS: bool>(seed: u32, input: &[u8]) -> u32 {
    let mut core = Core::new(seed);
    let rest = core.write_many::<BLOCKS>(input);
    // Its length, computed from the input's, shows the compiler that few words are left, so it doesn't unroll the loop.
    let rest = &rest[..input.len() % BYTES_IN_STRIPE];
    finish_with(seed, input.len().into_u64(), &core, rest)
}
