// SPDX-License-Identifier: MIT
// crates/twox_core/src/xxhash3/streaming/taken_stripes.rt without its contracts, written by rust/erase: change that file.

//! The stripes that a stream has taken.

use crate::erased::twox_core::xxhash3::{Secret, StripeAccumulator, Vector};
use crate::erased::twox_words::words::IntoU64;

/// The stripes that a stream has taken, as their effect.
#[repr(C)]
#[derive(Clone, Copy)]
pub struct TakenStripes {
    /// The accumulators, and their place in the secret.
    pub stripes: StripeAccumulator,
    /// Their number, saturating at 2^64 - 1.
    pub count: u64,
}

impl TakenStripes {
    #[inline(always)]
    pub(crate) fn new() -> TakenStripes {
        TakenStripes {
            stripes: StripeAccumulator::new(),
            count: 0,
        }
    }

    // Takes the whole stripes of `bytes`. `MANY` if there are so many that a separate call pays.
    #[inline(always)]
    pub(crate) fn process<V: Vector, const MANY: bool>(
        &mut self,
        v: V,
        bytes: &[u8],
        secret: Secret<'_>,
    ) {
        self.stripes.process_piece::<V, MANY>(v, bytes, secret);
        let count = bytes.len() / 64;
        self.count = self.count.saturating_add(count.into_u64());
    }
}
