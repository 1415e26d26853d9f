// SPDX-License-Identifier: MIT
// crates/twox_hash/src/streams.rt without its contracts, written by rust/erase: change that file.

//! Code shared by the streams of both widths: a core that takes the bytes, and the finalizer that computes the value.
//! Each width's module adds its names, `Hasher`, `LazyHasher` and `RawHasher`, and its last call.

use crate::rattle::prelude::Clone;
use crate::rattle::{AllocError, Allocator, Global};
use crate::buffers::BoxedSlice;
use std::marker::{PhantomData};
use crate::erased::twox_core::xxhash3::{
    ClonedBuffer, ClonedKey, DEFAULT_SEED, Finalize, FixedBuffer, Key, KeyedCore, LazyKey,
    RawHasherCore, SecretBuffer, SecretTooShortError,
};

/// A stream over a secret of the caller. Allocates nothing. Its names are `xxhash3_64::RawHasher` and
/// `xxhash3_128::RawHasher`.
pub struct RawStream<F: Finalize, S> {
    core: RawHasherCore<S>,
    finalizer: PhantomData<F>,
}

impl<F: Finalize, S> RawStream<F, S> {
    /// Creates a stream of no bytes, with the seed and the secret of the buffer.
    pub fn new(secret_buffer: SecretBuffer<S>) -> RawStream<F, S> {
        RawStream {
            core: RawHasherCore::new(secret_buffer),
            finalizer: PhantomData,
        }
    }

    /// Hashes a chunk after the bytes before.
    #[inline]
    pub fn write(&mut self, input: &[u8]) where S: FixedBuffer {
        self.core.write(input);
    }

    /// Hashes the bytes of an array after the bytes before, as `write` does.
    #[inline(always)]
    pub fn write_array<const N: usize>(&mut self, bytes: &[u8; N]) where S: FixedBuffer {
        self.core.write_array(bytes);
    }

    /// Returns the secret that was passed in.
    pub fn into_secret(self) -> S {
        let RawStream { core, finalizer: _ } = self;
        core.into_secret()
    }

    // Borrows the core, for the last call of a width.
    #[inline(always)]
    pub(crate) fn core(&self) -> &RawHasherCore<S> {
        &self.core
    }
}

impl<F: Finalize, S: ClonedBuffer> Clone for RawStream<F, S> {
    fn clone(&self) -> Result<RawStream<F, S>, AllocError> {
        let core = self.core.clone()?;
        Ok(RawStream {
            core,
            finalizer: PhantomData,
        })
    }
}

/// A stream over a key. Its names are `Hasher` and `LazyHasher` of `xxhash3_64` and `xxhash3_128`.
pub struct KeyedStream<F: Finalize, K: Key> {
    inner: KeyedCore<K>,
    finalizer: PhantomData<F>,
}

impl<F: Finalize, K: Key> KeyedStream<F, K> {
    #[inline(always)]
    fn over(inner: KeyedCore<K>) -> KeyedStream<F, K> {
        KeyedStream {
            inner,
            finalizer: PhantomData,
        }
    }

    /// Hashes a chunk after the bytes before.
    #[inline]
    pub fn write(&mut self, input: &[u8]) {
        self.inner.write(input);
    }

    /// Hashes the bytes of an array after the bytes before, as `write` does.
    #[inline(always)]
    pub fn write_array<const N: usize>(&mut self, bytes: &[u8; N]) {
        self.inner.write_array(bytes);
    }

    // Borrows the core, for the last call of a width.
    #[inline(always)]
    pub(crate) fn inner(&self) -> &KeyedCore<K> {
        &self.inner
    }
}

/// A stream whose secret is allocated: `xxhash3_64::Hasher` and `xxhash3_128::Hasher`.
pub type BoxedStream<F, A = Global> = KeyedStream<F, SecretBuffer<BoxedSlice<u8, A>>>;

impl<F: Finalize, A: Allocator> BoxedStream<F, A> {
    /// Creates a stream of no bytes, with the seed 0 and the default secret.
    ///
    /// # Errors
    ///
    /// `AllocError` if out of memory.
    pub fn new(alloc: A) -> Result<BoxedStream<F, A>, AllocError> {
        let buffer = SecretBuffer::allocate_default(alloc)?;
        Ok(KeyedStream::over(KeyedCore::new(buffer)))
    }

    /// Creates a stream of no bytes, with the seed 0 and the default secret, as [`BoxedStream::new`] does.
    ///
    /// # Errors
    ///
    /// `AllocError` if out of memory.
    pub fn default(alloc: A) -> Result<BoxedStream<F, A>, AllocError> {
        BoxedStream::new(alloc)
    }

    /// Creates a stream of no bytes, with the seed and the secret derived from it.
    ///
    /// # Errors
    ///
    /// `AllocError` if out of memory.
    pub fn with_seed(alloc: A, seed: u64) -> Result<BoxedStream<F, A>, AllocError> {
        let buffer = SecretBuffer::allocate_with_seed(alloc, seed)?;
        Ok(KeyedStream::over(KeyedCore::new(buffer)))
    }

    /// Creates a stream of no bytes, with the seed and the secret. Allocates nothing.
    ///
    /// # Errors
    ///
    /// Returns the secret in the error if it has fewer than 136 bytes.
    pub fn with_seed_and_secret(
        seed: u64,
        secret: BoxedSlice<u8, A>,
    ) -> Result<BoxedStream<F, A>, SecretTooShortError<BoxedSlice<u8, A>>> {
        let buffer = SecretBuffer::allocate_with_seed_and_secret(seed, secret)?;
        Ok(KeyedStream::over(KeyedCore::new(buffer)))
    }

    /// Creates a stream of no bytes, with only the secret, which it uses at every length with the seed 0. Allocates
    /// nothing.
    ///
    /// # Errors
    ///
    /// Returns the secret in the error if it has fewer than 136 bytes.
    pub fn with_secret(
        secret: BoxedSlice<u8, A>,
    ) -> Result<BoxedStream<F, A>, SecretTooShortError<BoxedSlice<u8, A>>> {
        let buffer = SecretBuffer::allocate_with_secret(secret)?;
        Ok(KeyedStream::over(KeyedCore::new(buffer)))
    }

    /// Returns the secret that was passed in or derived.
    pub fn into_secret(self) -> BoxedSlice<u8, A> {
        let KeyedStream {
            inner,
            finalizer: _,
        } = self;
        inner.into_secret()
    }
}

/// A stream that derives its secret whenever it has an effect: `xxhash3_64::LazyHasher` and `xxhash3_128::LazyHasher`.
pub type LazyStream<F, A = Global> = KeyedStream<F, LazyKey<A>>;

impl<F: Finalize, A: Allocator> LazyStream<F, A> {
    /// Creates a stream of no bytes, with the seed 0 and the default secret. Allocates nothing.
    #[inline(always)]
    pub fn new(alloc: A) -> LazyStream<F, A> {
        KeyedStream::over(KeyedCore::with_seed(alloc, DEFAULT_SEED))
    }

    /// Creates a stream of no bytes, with the seed and the secret derived from it. Allocates nothing.
    #[inline(always)]
    pub fn with_seed(alloc: A, seed: u64) -> LazyStream<F, A> {
        KeyedStream::over(KeyedCore::with_seed(alloc, seed))
    }

    /// Creates a stream of no bytes, with the seed and the secret. Allocates nothing.
    ///
    /// # Errors
    ///
    /// Returns the secret in the error if it has fewer than 136 bytes.
    pub fn with_seed_and_secret(
        seed: u64,
        secret: BoxedSlice<u8, A>,
    ) -> Result<LazyStream<F, A>, SecretTooShortError<BoxedSlice<u8, A>>> {
        let given = SecretBuffer::allocate_with_seed_and_secret(seed, secret)?;
        Ok(KeyedStream::over(KeyedCore::given(given)))
    }

    /// Returns the secret that was passed in or is derived from the seed.
    ///
    /// # Errors
    ///
    /// `AllocError` if it is derived, and out of memory.
    pub fn into_secret(self) -> Result<BoxedSlice<u8, A>, AllocError> {
        let KeyedStream {
            inner: keyed,
            finalizer: _,
        } = self;
        keyed.into_secret()
    }
}

impl<F: Finalize, K: ClonedKey> Clone for KeyedStream<F, K> {
    fn clone(&self) -> Result<KeyedStream<F, K>, AllocError> {
        let inner = self.inner.clone()?;
        Ok(KeyedStream::over(inner))
    }
}
