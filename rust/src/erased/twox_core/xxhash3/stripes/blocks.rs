// SPDX-License-Identifier: MIT
// crates/twox_core/src/xxhash3/stripes/blocks.rt without its contracts, written by rust/erase: change that file.

//! Whole blocks under a secret of 192 bytes, the length of the default secret and of all derived ones: a block then has
//! 16 stripes, which are taken four at a time.

use crate::erased::twox_core::xxhash3::parts::array_at;
use crate::erased::twox_core::xxhash3::{Secret, Vector};
use crate::erased::twox_words::words::bp_as_chunks;

/// Stripes of a block.
pub(in crate::erased::twox_core::xxhash3) const STRIPES_IN_BLOCK: usize = 16;

/// Bytes of a block.
pub(in crate::erased::twox_core::xxhash3) const BYTES_IN_BLOCK: usize = 64 * STRIPES_IN_BLOCK;

// Returns the accumulators after many whole blocks. A separate function, so that callers stay small.
#[inline(always)]
pub(super) fn take_many_blocks<V: Vector>(
    acc: [u64; 8],
    v: V,
    bytes: &[u8],
    secret: Secret<'_>,
) -> [u64; 8] {
    process_blocks::<V, true>(acc, v, bytes, secret)
}

// Returns the accumulators after whole blocks. The caller sets `MANY` if there are many: these have their own code, to
// which `assembly/prefetch.py` adds prefetches.
#[inline(always)]
pub(super) fn process_blocks<V: Vector, const MANY: bool>(
    acc: [u64; 8],
    v: V,
    bytes: &[u8],
    secret: Secret<'_>,
) -> [u64; 8] {
    let (blocks, _) = bp_as_chunks::<u8, 1024>(bytes);
    let mut taken = acc;
    'each: for i in 0..blocks.len() {
        let mut sums = process_block::<V, MANY>(taken, v, &blocks[i], secret);
        v.round_scramble(&mut sums, secret.last_stripe());
        taken = sums;
    }
    taken
}

// Returns the accumulators after the 16 stripes of a block, four at a time: with all 16 written out, there would be no
// place in a block for a prefetch.
#[inline(always)]
fn process_block<V: Vector, const MANY: bool>(
    acc: [u64; 8],
    v: V,
    block: &[u8; 1024],
    secret: Secret<'_>,
) -> [u64; 8] {
    let mut taken = acc;
    'fours: for i in 0..4 {
        v.accumulate_four_stripes(
            &mut taken,
            array_at(block, 256 * i),
            secret.four_stripes(4 * i),
        );
    }
    taken
}
