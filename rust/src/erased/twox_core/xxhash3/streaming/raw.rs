// SPDX-License-Identifier: MIT
// crates/twox_core/src/xxhash3/streaming/raw.rt without its contracts, written by rust/erase: change that file.

//! The streaming core of both widths.

use crate::rattle::prelude::Clone;
use super::core_state::CoreState;
use super::{BUFFERED_BYTES, ClonedBuffer, FixedBuffer, SecretBuffer, SecretTooShortError};
use crate::erased::twox_core::xxhash3::{Finalize, Kernel, Vector};
use crate::rattle::{AllocError, Allocator};
use crate::buffers::BoxedSlice;

/// A stream of bytes whose value any finalizer (`Finalize`) can return at any moment.
///
/// Its type fixes its size: 608 bytes, of which the buffer is `BUFFERED_BYTES`, and those of the secret buffer.
pub struct RawHasherCore<S> {
    secret_buffer: SecretBuffer<S>,
    state: CoreState,
}

impl<S> RawHasherCore<S> {
    /// Creates a stream of no bytes.
    pub fn new(secret_buffer: SecretBuffer<S>) -> RawHasherCore<S> {
        RawHasherCore {
            secret_buffer,
            state: CoreState::new(),
        }
    }

    /// Hashes a chunk after the bytes before.
    #[inline]
    pub fn write(&mut self, input: &[u8]) where S: FixedBuffer {
        self.state.take(input, self.secret_buffer.secret());
    }

    /// Hashes the bytes of an array after the bytes before, as [`RawHasherCore::write`] does.
    #[inline(always)]
    pub fn write_array<const N: usize>(&mut self, bytes: &[u8; N]) where S: FixedBuffer {
        self.state.take_array(bytes, self.secret_buffer.secret());
    }

    /// Hashes a chunk after the bytes before, with a kernel. Each call may use another kernel.
    #[inline]
    pub fn write_with(&mut self, v: impl Vector, input: &[u8]) where S: FixedBuffer {
        self.state.write(v, input, self.secret_buffer.secret());
    }

    /// Returns the value of the bytes taken so far, by `finalize`. Doesn't change the stream. Above 240 bytes it uses
    /// the stream's secret. Up to 240 bytes it uses the default secret and the stream's seed or, if the stream was made
    /// with only a secret, that secret and the seed 0.
    #[inline]
    pub fn finish<F: Finalize >(&self, finalize: F) -> F::Output where S: FixedBuffer {
        let secret = self.secret_buffer.secret();
        self.state
            .finish_key(Kernel {}, &finalize, self.secret_buffer.seed(), secret)
    }

    /// Does the same as [`RawHasherCore::finish`], with a kernel that the caller chooses. Each call may use another
    /// kernel.
    #[inline]
    pub fn finish_with<F: Finalize >(&self, v: impl Vector, finalize: F) -> F::Output where S: FixedBuffer {
        let secret = self.secret_buffer.secret();
        self.state
            .finish(v, &finalize, self.secret_buffer.seed(), secret)
    }

    /// Total bytes taken, saturating at 2^64 - 1.
    pub fn total_len(&self) -> u64 {
        self.state.counts.total_bytes
    }

    /// Number of stripes that the accumulators have taken, saturating at 2^64 - 1.
    ///
    /// With the bytes that `buffered` counts, these are all bytes taken so far.
    pub fn stripes_done(&self) -> u64 {
        self.state.counts.taken.count
    }

    /// Number of bytes buffered: none before the first byte, and then from 1 to `BUFFERED_BYTES`.
    pub fn buffered(&self) -> usize {
        self.state.counts.buffer_usage
    }

    /// Returns the secret.
    pub fn into_secret(self) -> S {
        let RawHasherCore {
            secret_buffer,
            state: _,
        } = self;
        secret_buffer.into_secret()
    }
}

impl<S: ClonedBuffer> Clone for RawHasherCore<S> {
    fn clone(&self) -> Result<RawHasherCore<S>, AllocError> {
        let secret_buffer = self.secret_buffer.clone()?;
        Ok(RawHasherCore {
            secret_buffer,
            state: self.state,
        })
    }
}

/// A stream whose secret is allocated.
pub type AllocRawHasher<A> = RawHasherCore<BoxedSlice<u8, A>>;

impl<A: Allocator> AllocRawHasher<A> {
    /// Creates a stream with the seed 0 and the default secret.
    ///
    /// # Errors
    ///
    /// `AllocError` if out of memory.
    pub fn allocate_default(alloc: A) -> Result<AllocRawHasher<A>, AllocError> {
        Ok(RawHasherCore::new(SecretBuffer::allocate_default(alloc)?))
    }

    /// Creates a stream with the seed and the secret derived from it.
    ///
    /// # Errors
    ///
    /// `AllocError` if out of memory.
    pub fn allocate_with_seed(alloc: A, seed: u64) -> Result<AllocRawHasher<A>, AllocError> {
        Ok(RawHasherCore::new(SecretBuffer::allocate_with_seed(alloc, seed)?))
    }

    /// Creates a stream with the seed and the secret. Allocates nothing.
    ///
    /// # Errors
    ///
    /// Returns the secret in the error if it has fewer than 136 bytes.
    pub fn allocate_with_seed_and_secret(
        seed: u64,
        secret: BoxedSlice<u8, A>,
    ) -> Result<AllocRawHasher<A>, SecretTooShortError<BoxedSlice<u8, A>>> {
        let secret_buffer = SecretBuffer::allocate_with_seed_and_secret(seed, secret)?;
        Ok(RawHasherCore::new(secret_buffer))
    }

    /// Creates a stream with only the secret, used at every length with the seed 0. Allocates nothing.
    ///
    /// # Errors
    ///
    /// Returns the secret in the error if it has fewer than 136 bytes.
    pub fn allocate_with_secret(
        secret: BoxedSlice<u8, A>,
    ) -> Result<AllocRawHasher<A>, SecretTooShortError<BoxedSlice<u8, A>>> {
        let secret_buffer = SecretBuffer::allocate_with_secret(secret)?;
        Ok(RawHasherCore::new(secret_buffer))
    }
}
