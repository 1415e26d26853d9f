// SPDX-License-Identifier: MIT
// crates/twox_core/src/xxhash3/streaming/key.rt without its contracts, written by rust/erase: change that file.

//! What a stream takes its seed and its secret from.

use crate::rattle::prelude::Clone;
use super::stream_state::StreamState;
use super::{BUFFERED_BYTES, ClonedBuffer, FixedBuffer, SecretBuffer};
use crate::erased::twox_core::xxhash3::{Finalize, Kernel};

/// The seed and the secret of a stream.
///
/// A stream calls both functions under its own invariant, which is their `requires`.
pub trait Key {
    /// The secret, as clauses see it.
    type Held;

    /// Hashes a chunk.
    fn write(&self, state: &mut StreamState, input: &[u8]);

    /// Returns the value of the bytes.
    fn finish<F: Finalize>(&self, state: &StreamState, finalize: &F) -> F::Output;
}

/// A key whose clones have the same seed and a secret of the same bytes.
pub trait ClonedKey: Key + Clone {}

impl<S: FixedBuffer> Key for SecretBuffer<S> {
    type Held = S;

    #[inline(always)]
    fn write(&self, state: &mut StreamState, input: &[u8]) {
        state.write(input, self.secret());
    }

    #[inline(always)]
    fn finish<F: Finalize>(&self, state: &StreamState, finalize: &F) -> F::Output {
        state.finish(Kernel {}, finalize, self.seed(), self.secret())
    }
}

impl<S: FixedBuffer + ClonedBuffer> ClonedKey for SecretBuffer<S> {}
