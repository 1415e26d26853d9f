// SPDX-License-Identifier: MIT
// crates/twox_core/src/xxhash3/stripes.rt without its contracts, written by rust/erase: change that file.

//! The accumulators, their place in the secret, and the ways to take stripes.
//!
//! Functions named `process` are inlined, and functions named `take` are calls:
//!
//! | name | takes | number of bytes |
//! |---|---|---|
//! | `process_oneshot` | a one-shot's stripes before its last block | any |
//! | `process_piece` | a stream's stripes, which begin and end anywhere in a block | any |
//! | `process_stripes`, `take_stripes` | one after another, under any secret | any |
//! | `process_blocks` | whole blocks of a one-shot | less than 31 KiB |
//! | `take_many_stripes` | by one of the next three or `take_stripes` | 2 KiB and more of a chunk, 31 of a one-shot |
//! | `process_by_fours` | four at a time, from any place | 1 to 31 KiB |
//! | `process_by_blocks` | whole blocks, by `take_many_blocks`, and the stripes around them | 31 KiB and more |
//! | `take_widened`, `start_widened` | the same by eight lanes, with no call; the second of a one-shot | 1 KiB and more |
//!
//! `process_blocks` and the last three are for secrets of 192 bytes, such as the default one and each derived one.

mod blocks;
mod fours;
mod within;

pub(super) use self::blocks::{BYTES_IN_BLOCK, STRIPES_IN_BLOCK};
use self::blocks::{process_blocks, take_many_blocks};
pub(super) use self::within::accumulate_within;
use self::within::process_within;
use super::large::lanes8;
use super::{DEFAULT_SECRET_LENGTH, DefaultSecret, INITIAL_ACCUMULATORS, Secret, Vector};
use crate::erased::twox_words::words::bp_as_chunks;

// From this many bytes on, a one-shot takes its stripes in a separate function, in the way that is fastest for their
// number: 32 KiB without the last block, which a one-shot takes by itself.
pub(crate) const MANY_BYTES: usize = 31 * BYTES_IN_BLOCK;

/// The accumulators, and the number of stripes taken since the last scramble.
#[repr(C)]
#[derive(Clone, Copy)]
pub struct StripeAccumulator {
    accumulator: [u64; 8],
    current_stripe: usize,
}

impl StripeAccumulator {
    /// Returns the accumulators before the first stripe.
    #[inline(always)]
    pub fn new() -> StripeAccumulator {
        StripeAccumulator::starting_with(INITIAL_ACCUMULATORS)
    }

    // Returns these accumulators, at the secret's start.
    #[inline(always)]
    pub(crate) fn starting_with(accumulator: [u64; 8]) -> StripeAccumulator {
        StripeAccumulator {
            accumulator,
            current_stripe: 0,
        }
    }

    /// Returns the accumulators.
    #[inline(always)]
    pub fn accumulators(&self) -> [u64; 8] {
        self.accumulator
    }

    /// Number of stripes taken since the last scramble.
    #[inline(always)]
    pub fn current_stripe(&self) -> usize {
        let StripeAccumulator { current_stripe, .. } = *self;
        current_stripe
    }

    /// Takes a stripe, under the secret's 64 bytes at `8 * current_stripe()`. If that makes `n_stripes` stripes since
    /// the last scramble, scrambles the accumulators and restarts the count.
    ///
    /// The caller proves that `n_stripes` is the secret's number of places and that the count is below it.
    #[inline(always)]
    pub fn process_stripe(
        &mut self,
        v: impl Vector,
        stripe: &[u8; 64],
        n_stripes: usize,
        secret: Secret<'_>,
    ) {
        v.accumulate(
            &mut self.accumulator,
            stripe,
            secret.stripe(self.current_stripe),
        );
        self.current_stripe += 1;
        if self.current_stripe == n_stripes {
            v.round_scramble(&mut self.accumulator, secret.last_stripe());
            self.current_stripe = 0;
        }
    }

    // Takes the whole stripes of `bytes`, which mostly are whole blocks from the secret's start on. The caller sets
    // `MANY` if there are many bytes.
    #[inline(always)]
    pub(crate) fn process_oneshot<V: Vector, const MANY: bool>(
        &mut self,
        v: V,
        bytes: &[u8],
        secret: Secret<'_>,
    ) {
        let has_whole_blocks = self.current_stripe == 0 && bytes.len() % BYTES_IN_BLOCK == 0;
        if MANY {
            take_many_stripes(self, v, bytes, secret);
        } else if secret.n_stripes() == STRIPES_IN_BLOCK && has_whole_blocks {
            let taken = process_blocks::<V, false>(self.accumulator, v, bytes, secret);
            *self = StripeAccumulator::starting_with(taken);
        } else {
            self.process_stripes(v, bytes, secret);
        }
    }

    // Takes the whole stripes of bytes that begin and end anywhere in a block. The caller sets `MANY` if there are many
    // bytes.
    #[inline(always)]
    pub(crate) fn process_piece<V: Vector, const MANY: bool>(
        &mut self,
        v: V,
        bytes: &[u8],
        secret: Secret<'_>,
    ) {
        if MANY {
            take_many_stripes(self, v, bytes, secret);
        } else {
            self.process_stripes(v, bytes, secret);
        }
    }

    // Takes the stripes. The accumulators are a copy in the loop, so that they stay in registers.
    #[inline(always)]
    pub(crate) fn process_stripes<V: Vector>(&mut self, v: V, bytes: &[u8], secret: Secret<'_>) {
        let n_stripes = secret.n_stripes();
        let (stripes, _) = bp_as_chunks(bytes);
        let mut taken = *self;
        'stripes: for stripe in stripes {
            taken.process_stripe(v, stripe, n_stripes, secret);
        }
        *self = taken;
    }
}

// Returns the accumulators after the stripes. A separate function, so that callers stay small.
#[inline(always)]
fn take_stripes<V: Vector>(
    from: StripeAccumulator,
    v: V,
    bytes: &[u8],
    secret: Secret<'_>,
) -> StripeAccumulator {
    let mut taken = from;
    taken.process_stripes(v, bytes, secret);
    taken
}

// Takes the stripes of many bytes. A separate function, so that callers stay small.
#[inline(always)]
fn take_many_stripes<V: Vector>(
    taken: &mut StripeAccumulator,
    v: V,
    bytes: &[u8],
    secret: Secret<'_>,
) {
    if secret.n_stripes() != STRIPES_IN_BLOCK || bytes.len() < BYTES_IN_BLOCK {
        *taken = take_stripes(*taken, v, bytes, secret);
    } else if v.is_widened() && secret.len() == DEFAULT_SECRET_LENGTH {
        take_widened(taken, bytes, secret.of_default_length());
    } else if bytes.len() < MANY_BYTES {
        taken.process_by_fours(v, bytes, secret);
    } else {
        *taken = process_by_blocks::<V, false>(*taken, v, bytes, secret);
    }
}

// Does the same by eight lanes, in one function that knows the secret's length, so it has no branch that is never
// taken. The accumulators stay in place: a copy would be stored in parts, and a load of all of it would wait for these.
#[inline(never)]
fn take_widened(taken: &mut StripeAccumulator, bytes: &[u8], secret: &DefaultSecret) {
    let secret = Secret::new(secret).unwrap();
    *taken = process_by_blocks::<lanes8::Impl, true>(*taken, lanes8::Impl {}, bytes, secret);
}

// Returns the accumulators after a one-shot's stripes, by eight lanes in the same way.
#[inline(never)]
pub(super) fn start_widened(bytes: &[u8], secret: &DefaultSecret) -> StripeAccumulator {
    let start = StripeAccumulator::new();
    let secret = Secret::new(secret).unwrap();
    process_by_blocks::<lanes8::Impl, true>(start, lanes8::Impl {}, bytes, secret)
}

// Returns the accumulators after the stripes, by whole blocks, under a secret of 192 bytes: first the stripes to the
// end of a block, and last those of a block that isn't whole. `IN_PLACE` inlines all of it.
#[inline(always)]
fn process_by_blocks<V: Vector, const IN_PLACE: bool>(
    from: StripeAccumulator,
    v: V,
    bytes: &[u8],
    secret: Secret<'_>,
) -> StripeAccumulator {
    let to_block = (STRIPES_IN_BLOCK - from.current_stripe()) % STRIPES_IN_BLOCK;
    let (front, rest) = bytes.split_at(64 * to_block);
    let at_block = with_part_of_block::<V, IN_PLACE>(from, v, front, secret);
    let (whole, rest) = rest.split_at(rest.len() / BYTES_IN_BLOCK * BYTES_IN_BLOCK);
    let taken = with_blocks::<V, IN_PLACE>(at_block.accumulators(), v, whole, secret);
    let at_start = StripeAccumulator::starting_with(taken);
    with_part_of_block::<V, IN_PLACE>(at_start, v, rest, secret)
}

// Returns the accumulators after the stripes of a part of a block, inlined or by a call.
#[inline(always)]
fn with_part_of_block<V: Vector, const IN_PLACE: bool>(
    from: StripeAccumulator,
    v: V,
    bytes: &[u8],
    secret: Secret<'_>,
) -> StripeAccumulator {
    if IN_PLACE {
        process_within(from, v, bytes, secret)
    } else {
        take_stripes(from, v, bytes, secret)
    }
}

// Returns the accumulators after whole blocks, inlined or by a call.
#[inline(always)]
fn with_blocks<V: Vector, const IN_PLACE: bool>(
    acc: [u64; 8],
    v: V,
    bytes: &[u8],
    secret: Secret<'_>,
) -> [u64; 8] {
    if IN_PLACE {
        process_blocks::<V, true>(acc, v, bytes, secret)
    } else {
        take_many_blocks(acc, v, bytes, secret)
    }
}
