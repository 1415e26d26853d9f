// SPDX-License-Identifier: MIT
// crates/twox_core/src/xxhash3/streaming/keyed_core.rt without its contracts, written by rust/erase: change that file.

//! The streaming core over a key, which is a few bytes before its buffer begins.

use crate::rattle::prelude::Clone;
use super::stream_state::StreamState;
use super::{ClonedKey, FixedBuffer, Key, LazyKey, SecretBuffer};
use crate::erased::twox_core::xxhash3::Finalize;
use crate::rattle::{AllocError, Allocator};
use crate::buffers::BoxedSlice;

/// A stream of bytes whose value any finalizer (`Finalize`) can return at any moment.
///
/// Up to 128 bytes are only stored. A buffer and accumulators begin with the first chunk for which these have no room.
pub struct KeyedCore<K: Key> {
    key: K,
    state: StreamState,
}

impl<K: Key> KeyedCore<K> {
    // Creates a stream of no bytes.
    #[inline(always)]
    fn over(key: K) -> KeyedCore<K> {
        KeyedCore {
            key,
            state: StreamState::new(),
        }
    }

    /// Hashes a chunk after the bytes before.
    #[inline(always)]
    pub fn write(&mut self, input: &[u8]) {
        if !self.state.hold(input) {
            self.write_far(input);
        }
    }

    /// Hashes the bytes of an array after the bytes before, as [`KeyedCore::write`] does.
    #[inline(always)]
    pub fn write_array<const N: usize>(&mut self, bytes: &[u8; N]) {
        if !self.state.hold_array(bytes) {
            self.write_any(&bytes[..]);
        }
    }

    // Separate function, so that short streams pay for nothing in it.
    #[inline(never)]
    fn write_any(&mut self, input: &[u8]) {
        self.write(input);
    }

    // Separate function, so that chunks that fit the buffer pay for nothing in it.
    #[inline(never)]
    fn write_far(&mut self, input: &[u8]) {
        self.key.write(&mut self.state, input);
    }

    /// Returns the value of the bytes taken so far, by `finalize`. Doesn't change the stream. Above 240 bytes it uses
    /// the stream's secret. Up to 240 bytes it uses the default secret and the stream's seed or, if the stream was made
    /// with only a secret, that secret and the seed 0.
    #[inline(always)]
    pub fn finish<F: Finalize >(&self, finalize: F) -> F::Output {
        self.key.finish(&self.state, &finalize)
    }
}

impl<S: FixedBuffer> KeyedCore<SecretBuffer<S>> {
    /// Creates a stream of no bytes.
    #[inline(always)]
    pub fn new(secret_buffer: SecretBuffer<S>) -> KeyedCore<SecretBuffer<S>> {
        KeyedCore::over(secret_buffer)
    }

    /// Returns the secret.
    pub fn into_secret(self) -> S {
        let KeyedCore { key, state: _ } = self;
        key.into_secret()
    }
}

impl<A: Allocator> KeyedCore<LazyKey<A>> {
    /// Creates a stream of no bytes, with the seed and the secret derived from it. Allocates nothing.
    #[inline(always)]
    pub fn with_seed(alloc: A, seed: u64) -> KeyedCore<LazyKey<A>> {
        KeyedCore::over(LazyKey::Derived(seed, alloc))
    }

    /// Creates a stream of no bytes, with the seed and the secret of the buffer. Allocates nothing.
    pub fn given(secret_buffer: SecretBuffer<BoxedSlice<u8, A>>) -> KeyedCore<LazyKey<A>> {
        secret_buffer.show_length();
        KeyedCore::over(LazyKey::Given(secret_buffer))
    }

    /// Returns the secret.
    ///
    /// # Errors
    ///
    /// `AllocError` if it is derived, and out of memory.
    pub fn into_secret(self) -> Result<BoxedSlice<u8, A>, AllocError> {
        let KeyedCore { key, state: _ } = self;
        key.into_secret()
    }
}

impl<K: ClonedKey> Clone for KeyedCore<K> {
    fn clone(&self) -> Result<KeyedCore<K>, AllocError> {
        let key = self.key.clone()?;
        Ok(KeyedCore {
            key,
            state: self.state,
        })
    }
}
