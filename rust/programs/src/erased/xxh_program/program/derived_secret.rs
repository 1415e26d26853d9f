// SPDX-License-Identifier: MIT
// crates/xxh_program/src/program/derived_secret.rt without its contracts, written by rust/erase --programs: change that file.

//! The secret of both XXH3 streams in the digest engine.

use crate::programs::twox_hash::xxhash3::{DEFAULT_SECRET_LENGTH, DefaultSecret, SecretBuffer};

// Returns the seed and the secret derived from it.
pub(crate) fn derived_secret_of(seed: u64) -> SecretBuffer<DefaultSecret> {
    SecretBuffer::with_seed(seed, [0; DEFAULT_SECRET_LENGTH]).unwrap()
}
