// SPDX-License-Identifier: MIT
// crates/twox_hash/src/xxhash3_64.rt without its contracts, written by rust/erase: change that file.

//! XXH3 64-bit.

use crate::erased::twox_hash::streams::{BoxedStream, KeyedStream, LazyStream, RawStream};
use crate::rattle::Global;
use std::hash;
use crate::erased::twox_core::width_64;
pub use crate::erased::twox_core::width_64::Finalize64;
pub use crate::erased::twox_core::xxhash3::{
    ClonedBuffer, DEFAULT_SECRET_LENGTH, FixedBuffer, FixedMutBuffer, OneshotWithSecretError,
    SECRET_MINIMUM_LENGTH, SecretBuffer, SecretTooShortError, SecretWithSeedError,
};
use crate::erased::twox_core::xxhash3::{CUTOFF, Key, Secret, default_secret};

/// Calculates the 64-bit hash, of all bytes at once or of chunks one after another. The secret of a stream is
/// allocated.
///
/// ```text
/// let mut hasher = Hasher::with_seed(alloc, 7)?;
/// hasher.write(b"some ");
/// hasher.write(b"bytes");
/// assert_eq!(hasher.finish(), Hasher::oneshot_with_seed(7, b"some bytes"));
/// ```
pub type Hasher<A = Global> = BoxedStream<Finalize64, A>;

/// A stream that derives its secret from its seed whenever it has an effect, and allocates nothing for it.
///
/// ```text
/// let mut hasher = LazyHasher::with_seed(alloc, 7);
/// hasher.write(b"some bytes");
/// assert_eq!(hasher.finish(), Hasher::oneshot_with_seed(7, b"some bytes"));
/// ```
pub type LazyHasher<A = Global> = LazyStream<Finalize64, A>;

/// A stream over a secret of the caller. Allocates nothing.
///
/// ```text
/// let secret = SecretBuffer::with_seed(7, [0; DEFAULT_SECRET_LENGTH])?;
/// let mut hasher = RawHasher::new(secret);
/// hasher.write(b"some bytes");
/// assert_eq!(hasher.finish(), Hasher::oneshot_with_seed(7, b"some bytes"));
/// ```
pub type RawHasher<S> = RawStream<Finalize64, S>;

impl Hasher<Global> {
    /// Hashes all bytes at once, with the default secret and the seed 0.
    ///
    /// No two different inputs of 1 to 3 bytes have the same hash, nor have two of one length from 4 to 8. An input of
    /// up to 8 bytes has another hash under every other seed. All this is also true of the other one-shots, under their
    /// secrets.
    #[inline]
    pub fn oneshot(input: &[u8]) -> u64 {
        width_64::oneshot(input)
    }

    /// Hashes all bytes at once, with a seed: up to 240 bytes with the default secret, above that with the secret
    /// derived from the seed.
    #[inline]
    pub fn oneshot_with_seed(seed: u64, input: &[u8]) -> u64 {
        width_64::oneshot_with_seed(seed, input)
    }

    /// Hashes all bytes at once, with a secret and the seed 0, at every length.
    ///
    /// # Errors
    ///
    /// `OneshotWithSecretError` if the secret has fewer than 136 bytes.
    #[inline]
    pub fn oneshot_with_secret(secret: &[u8], input: &[u8]) -> Result<u64, OneshotWithSecretError> {
        let secret = Secret::new(secret)?;
        Ok(width_64::oneshot_with_secret(secret, input))
    }

    /// Hashes all bytes at once, with a seed and a secret, of which only one has an effect: up to 240 bytes the seed,
    /// with the default secret, whatever secret is passed; above that the secret.
    ///
    /// # Errors
    ///
    /// `OneshotWithSecretError` if the input has more than 240 bytes and the secret fewer than 136.
    #[inline]
    pub fn oneshot_with_seed_and_secret(
        seed: u64,
        secret: &[u8],
        input: &[u8],
    ) -> Result<u64, OneshotWithSecretError> {
        if input.len() <= CUTOFF {
            return Ok(width_64::oneshot_short(default_secret(), seed, input));
        }
        let own = Secret::new(secret)?;
        Ok(width_64::oneshot_long(own, input))
    }
}

impl<K: Key> KeyedStream<Finalize64, K> {
    /// Returns the hash of the bytes written so far. More can be written afterwards. Up to 240 bytes it uses the
    /// default secret and the seed or, if the stream was made with only a secret, that secret and the seed 0; above
    /// that it uses the stream's secret and no seed.
    #[inline]
    pub fn finish(&self) -> u64 {
        self.inner().finish(Finalize64)
    }
}

impl<S: FixedBuffer> RawHasher<S> {
    /// Returns the hash of the bytes written so far. More can be written afterwards. Up to 240 bytes it uses the
    /// default secret and the seed or, if the stream was made with only a secret, that secret and the seed 0; above
    /// that it uses the stream's secret and no seed.
    #[inline]
    pub fn finish(&self) -> u64 {
        self.core().finish(Finalize64)
    }
}

impl<K: Key> hash::Hasher for KeyedStream<Finalize64, K> {
    fn finish(&self) -> u64 {
        KeyedStream::finish(self)
    }

    fn write(&mut self, bytes: &[u8]) {
        KeyedStream::write(self, bytes);
    }
}

impl<S: FixedBuffer> hash::Hasher for RawHasher<S> {
    fn finish(&self) -> u64 {
        RawHasher::finish(self)
    }

    fn write(&mut self, bytes: &[u8]) {
        RawStream::write(self, bytes);
    }
}
