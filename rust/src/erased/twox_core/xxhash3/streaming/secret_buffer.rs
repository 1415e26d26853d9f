// SPDX-License-Identifier: MIT
// crates/twox_core/src/xxhash3/streaming/secret_buffer.rt without its contracts, written by rust/erase: change that file.

//! A stored secret with its seed, and the errors for a secret of the wrong length.

use crate::rattle::prelude::Clone;
use super::{ClonedBuffer, FixedBuffer, FixedMutBuffer};
use crate::erased::twox_core::xxhash3::{
    DEFAULT_SECRET_LENGTH, DEFAULT_SECRET_RAW, DEFAULT_SEED, DefaultSecret, SECRET_MINIMUM_LENGTH,
    Secret, derived_secret,
};
use crate::rattle::{AllocError, Allocator};
use crate::buffers::BoxedSlice;
use std::error::Error;
use std::fmt;

/// A secret of at least 136 bytes, and its seed, if it was made with one.
///
/// A stream over a buffer that was made with a seed hashes up to 240 bytes with the default secret and the seed, and
/// more with the secret. A stream over a buffer that was made with only a secret uses that at every length.
pub struct SecretBuffer<S> {
    seed: Option<u64>,
    secret: S,
}

impl<S> SecretBuffer<S> {
    /// Stores the seed and the secret as they are.
    ///
    /// # Errors
    ///
    /// Returns the secret in the error if it has fewer than 136 bytes.
    pub fn new(seed: u64, secret: S) -> Result<SecretBuffer<S>, SecretTooShortError<S>> where S: FixedBuffer {
        SecretBuffer::checked(Some(seed), secret)
    }

    /// Stores only the secret, used at every length with the seed 0.
    ///
    /// # Errors
    ///
    /// Returns the secret in the error if it has fewer than 136 bytes.
    pub fn with_secret(secret: S) -> Result<SecretBuffer<S>, SecretTooShortError<S>> where S: FixedBuffer {
        SecretBuffer::checked(None, secret)
    }

    // Stores both, if the secret has its minimum length.
    fn checked(seed: Option<u64>, secret: S) -> Result<SecretBuffer<S>, SecretTooShortError<S>> where S: FixedBuffer {
        if secret.as_ref().len() >= SECRET_MINIMUM_LENGTH {
            Ok(SecretBuffer { seed, secret })
        } else {
            Err(SecretTooShortError { secret })
        }
    }

    /// Returns the secret.
    pub fn into_secret(self) -> S {
        let SecretBuffer { seed: _, secret } = self;
        secret
    }

    // Shows that the secret has its minimum length.
    #[inline(always)]
    pub(super) fn show_length(&self) {
        let _ = &self.seed;
    }

    // Returns the seed, if the buffer was made with one.
    #[inline(always)]
    pub(super) fn seed(&self) -> Option<u64> {
        self.seed
    }

    // Borrows the secret.
    #[inline(always)]
    pub(super) fn secret(&self) -> Secret<'_> where S: FixedBuffer {
        secret_of(self.secret.as_ref())
    }
}

// Wraps the bytes of a buffer.
#[inline(always)]
fn secret_of(bytes: &[u8]) -> Secret<'_> {
    crate::buffers::secret_of(bytes)
}

impl<S: FixedMutBuffer> SecretBuffer<S> {
    /// Overwrites the buffer with the secret derived from the seed, and stores it.
    ///
    /// # Errors
    ///
    /// Returns the unchanged buffer in the error if it is not exactly 192 bytes long.
    pub fn with_seed(seed: u64, mut secret: S) -> Result<SecretBuffer<S>, SecretWithSeedError<S>> {
        if secret.as_ref().len() != DEFAULT_SECRET_LENGTH {
            return Err(SecretWithSeedError { secret });
        }
        secret.as_mut().copy_from_slice(&derived_secret(seed));
        Ok(SecretBuffer {
            seed: Some(seed),
            secret,
        })
    }
}

impl SecretBuffer<DefaultSecret> {
    /// Stores the seed 0 and the default secret.
    pub fn default() -> SecretBuffer<DefaultSecret> {
        SecretBuffer {
            seed: Some(DEFAULT_SEED),
            secret: DEFAULT_SECRET_RAW,
        }
    }
}

impl SecretBuffer<&'static DefaultSecret> {
    /// Stores the seed 0, and borrows the default secret.
    pub const fn borrowed_default() -> SecretBuffer<&'static DefaultSecret> {
        SecretBuffer {
            seed: Some(DEFAULT_SEED),
            secret: &DEFAULT_SECRET_RAW,
        }
    }
}

impl<A: Allocator> SecretBuffer<BoxedSlice<u8, A>> {
    /// Stores the seed 0 and the default secret, allocated.
    ///
    /// # Errors
    ///
    /// `AllocError` if out of memory.
    pub fn allocate_default(alloc: A) -> Result<SecretBuffer<BoxedSlice<u8, A>>, AllocError> {
        Ok(SecretBuffer {
            seed: Some(DEFAULT_SEED),
            secret: BoxedSlice::from_slice(alloc, &DEFAULT_SECRET_RAW)?,
        })
    }

    /// Stores the seed and the secret derived from it, allocated.
    ///
    /// # Errors
    ///
    /// `AllocError` if out of memory.
    pub fn allocate_with_seed(
        alloc: A,
        seed: u64,
    ) -> Result<SecretBuffer<BoxedSlice<u8, A>>, AllocError> {
        Ok(SecretBuffer {
            seed: Some(seed),
            secret: BoxedSlice::from_slice(alloc, &derived_secret(seed))?,
        })
    }

    /// Stores the seed and the secret as they are. Allocates nothing.
    ///
    /// # Errors
    ///
    /// Returns the secret in the error if it has fewer than 136 bytes.
    pub fn allocate_with_seed_and_secret(
        seed: u64,
        secret: BoxedSlice<u8, A>,
    ) -> Result<SecretBuffer<BoxedSlice<u8, A>>, SecretTooShortError<BoxedSlice<u8, A>>> {
        SecretBuffer::new(seed, secret)
    }

    /// Stores only the secret, used at every length with the seed 0. Allocates nothing.
    ///
    /// # Errors
    ///
    /// Returns the secret in the error if it has fewer than 136 bytes.
    pub fn allocate_with_secret(
        secret: BoxedSlice<u8, A>,
    ) -> Result<SecretBuffer<BoxedSlice<u8, A>>, SecretTooShortError<BoxedSlice<u8, A>>> {
        SecretBuffer::with_secret(secret)
    }
}

impl<S: ClonedBuffer> Clone for SecretBuffer<S> {
    fn clone(&self) -> Result<SecretBuffer<S>, AllocError> {
        let secret = self.secret.clone()?;
        Ok(SecretBuffer {
            seed: self.seed,
            secret,
        })
    }
}

/// The secret has fewer than 136 bytes.
pub struct SecretTooShortError<S> {
    pub(crate) secret: S,
}

impl<S> SecretTooShortError<S> {
    /// Returns the secret that was passed in.
    pub fn into_secret(self) -> S {
        let SecretTooShortError { secret } = self;
        secret
    }
}

impl<S> fmt::Debug for SecretTooShortError<S> {
    fn fmt(&self, f: &mut fmt::Formatter<'_>) -> fmt::Result {
        f.write_str("SecretTooShortError")
    }
}

impl<S> fmt::Display for SecretTooShortError<S> {
    fn fmt(&self, f: &mut fmt::Formatter<'_>) -> fmt::Result {
        f.write_str("The secret must have at least 136 bytes")
    }
}

impl<S> Error for SecretTooShortError<S> {}

/// The buffer for a derived secret is not exactly 192 bytes long.
pub struct SecretWithSeedError<S> {
    secret: S,
}

impl<S> SecretWithSeedError<S> {
    /// Returns the buffer that was passed in.
    pub fn into_secret(self) -> S {
        let SecretWithSeedError { secret } = self;
        secret
    }
}

impl<S> fmt::Debug for SecretWithSeedError<S> {
    fn fmt(&self, f: &mut fmt::Formatter<'_>) -> fmt::Result {
        f.write_str("SecretWithSeedError")
    }
}

impl<S> fmt::Display for SecretWithSeedError<S> {
    fn fmt(&self, f: &mut fmt::Formatter<'_>) -> fmt::Result {
        f.write_str("The secret must be exactly 192 bytes")
    }
}

impl<S> Error for SecretWithSeedError<S> {}
