// SPDX-License-Identifier: MIT
// crates/twox_core/src/xxhash3/stripes/fours.rt without its contracts, written by rust/erase: change that file.

//! Four stripes at a time under a secret of 192 bytes, the length of the default secret and of all derived ones: a
//! block then has 16 stripes, so that it can end only at every fourth one.

use super::{STRIPES_IN_BLOCK, StripeAccumulator};
use crate::erased::twox_core::xxhash3::{Secret, Vector};
use crate::erased::twox_words::words::bp_as_chunks;

impl StripeAccumulator {
    // Takes the whole stripes of `bytes`: first those before a place that is a multiple of four, and last those that
    // are fewer than four.
    #[inline(always)]
    pub(super) fn process_by_fours<V: Vector>(&mut self, v: V, bytes: &[u8], secret: Secret<'_>) {
        let (front, rest) = bytes.split_at(64 * ((STRIPES_IN_BLOCK - self.current_stripe) % 4));
        let (fours, rest) = rest.split_at(rest.len() / 256 * 256);
        let mut taken = *self;
        taken.process_stripes(v, front, secret);
        taken.process_fours(v, fours, secret);
        taken.process_stripes(v, rest, secret);
        *self = taken;
    }

    // Takes each four stripes of `bytes`, from a place that is a multiple of four.
    #[inline(always)]
    fn process_fours<V: Vector>(&mut self, v: V, bytes: &[u8], secret: Secret<'_>) {
        let (fours, _) = bp_as_chunks(bytes);
        let mut taken = *self;
        'fours: for four in fours {
            taken.process_four(v, four, secret);
        }
        *self = taken;
    }

    // Takes four stripes, of which only the last can end the block.
    #[inline(always)]
    fn process_four<V: Vector>(&mut self, v: V, stripes: &[u8; 256], secret: Secret<'_>) {
        v.accumulate_four_stripes(
            &mut self.accumulator,
            stripes,
            secret.four_stripes(self.current_stripe),
        );
        self.current_stripe += 4;
        if self.current_stripe == STRIPES_IN_BLOCK {
            v.round_scramble(&mut self.accumulator, secret.last_stripe());
            self.current_stripe = 0;
        }
    }
}
