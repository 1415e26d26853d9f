// SPDX-License-Identifier: MIT
// crates/twox_hash/src/xxhash3_128.rt without its contracts, written by rust/erase: change that file.

//! XXH3 128-bit.

use crate::erased::twox_hash::streams::{BoxedStream, KeyedStream, LazyStream, RawStream};
use crate::rattle::Global;
use crate::erased::twox_core::width_128;
pub use crate::erased::twox_core::width_128::Finalize128;
pub use crate::erased::twox_core::xxhash3::{
    ClonedBuffer, DEFAULT_SECRET_LENGTH, FixedBuffer, FixedMutBuffer, OneshotWithSecretError,
    SECRET_MINIMUM_LENGTH, SecretBuffer, SecretTooShortError, SecretWithSeedError,
};
use crate::erased::twox_core::xxhash3::{CUTOFF, Key, Secret, default_secret};
use crate::erased::twox_words::words::IntoU128;

/// Calculates the 128-bit hash, of all bytes at once or of chunks one after another. The secret of a stream is
/// allocated.
///
/// ```text
/// let mut hasher = Hasher::with_seed(alloc, 7)?;
/// hasher.write(b"some ");
/// hasher.write(b"bytes");
/// assert_eq!(hasher.finish_128(), Hasher::oneshot_with_seed(7, b"some bytes"));
/// ```
pub type Hasher<A = Global> = BoxedStream<Finalize128, A>;

/// A stream that derives its secret from its seed whenever it has an effect, and allocates nothing for it.
///
/// ```text
/// let mut hasher = LazyHasher::with_seed(alloc, 7);
/// hasher.write(b"some bytes");
/// assert_eq!(hasher.finish_128(), Hasher::oneshot_with_seed(7, b"some bytes"));
/// ```
pub type LazyHasher<A = Global> = LazyStream<Finalize128, A>;

/// A stream over a secret of the caller. Allocates nothing.
///
/// ```text
/// let secret = SecretBuffer::with_seed(7, [0; DEFAULT_SECRET_LENGTH])?;
/// let mut hasher = RawHasher::new(secret);
/// hasher.write(b"some bytes");
/// assert_eq!(hasher.finish_128(), Hasher::oneshot_with_seed(7, b"some bytes"));
/// ```
pub type RawHasher<S> = RawStream<Finalize128, S>;

impl Hasher<Global> {
    /// Hashes all bytes at once, with the default secret and the seed 0.
    ///
    /// No two different inputs of one length up to 16 bytes have the same hash, and an input of up to 16 bytes has
    /// another hash under every other seed. For 1 to 3 bytes and above 240 the low half is the 64-bit hash. All this is
    /// also true of the other one-shots, under their secrets.
    #[inline]
    pub fn oneshot(input: &[u8]) -> u128 {
        width_128::oneshot(input).into_u128()
    }

    /// Hashes all bytes at once, with a seed: up to 240 bytes with the default secret, above that with the secret
    /// derived from the seed.
    #[inline]
    pub fn oneshot_with_seed(seed: u64, input: &[u8]) -> u128 {
        width_128::oneshot_with_seed(seed, input).into_u128()
    }

    /// Hashes all bytes at once, with a secret and the seed 0, at every length.
    ///
    /// # Errors
    ///
    /// `OneshotWithSecretError` if the secret has fewer than 136 bytes.
    #[inline]
    pub fn oneshot_with_secret(secret: &[u8], input: &[u8]) -> Result<u128, OneshotWithSecretError> {
        let secret = Secret::new(secret)?;
        Ok(width_128::oneshot_with_secret(secret, input).into_u128())
    }

    /// Hashes all bytes at once, with a seed and a secret, of which only one has an effect: up to 240 bytes the seed,
    /// with the default secret, whatever secret is passed; above that the secret.
    ///
    /// # Errors
    ///
    /// `OneshotWithSecretError` if the input has more than 240 bytes and the secret fewer than 136.
    #[inline]
    pub fn oneshot_with_seed_and_secret(
        seed: u64,
        secret: &[u8],
        input: &[u8],
    ) -> Result<u128, OneshotWithSecretError> {
        if input.len() <= CUTOFF {
            return Ok(width_128::oneshot_short(default_secret(), seed, input).into_u128());
        }
        let own = Secret::new(secret)?;
        Ok(width_128::oneshot_long(own, input).into_u128())
    }
}

impl<K: Key> KeyedStream<Finalize128, K> {
    /// Returns the hash of the bytes written so far. More can be written afterwards. Up to 240 bytes it uses the
    /// default secret and the seed or, if the stream was made with only a secret, that secret and the seed 0; above
    /// that it uses the stream's secret and no seed.
    #[inline]
    pub fn finish_128(&self) -> u128 {
        self.inner().finish(Finalize128)
    }
}

impl<S: FixedBuffer> RawHasher<S> {
    /// Returns the hash of the bytes written so far. More can be written afterwards. Up to 240 bytes it uses the
    /// default secret and the seed or, if the stream was made with only a secret, that secret and the seed 0; above
    /// that it uses the stream's secret and no seed.
    #[inline]
    pub fn finish_128(&self) -> u128 {
        self.core().finish(Finalize128)
    }
}
