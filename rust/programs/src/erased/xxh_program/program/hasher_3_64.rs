// SPDX-License-Identifier: MIT
// crates/xxh_program/src/program/hasher_3_64.rt without its contracts, written by rust/erase --programs: change that file.

//! XXH3 64-bit in the digest engine.

use crate::programs::xxh_program::program::derived_secret::derived_secret_of;
use crate::programs::xxh_program::program::feed::Feed;
use crate::programs::twox_hash::xxhash3::DefaultSecret;
use crate::programs::twox_hash::xxhash3_64::RawHasher;

impl Feed for RawHasher<DefaultSecret> {
    fn feed(&mut self, piece: &[u8]) {
        self.write(piece);
    }

    fn value(&self) -> u128 {
        u128::from(self.finish())
    }
}

// Returns the stream of no bytes.
pub(crate) fn with_seed_64(seed: u64) -> RawHasher<DefaultSecret> {
    RawHasher::new(derived_secret_of(seed))
}
