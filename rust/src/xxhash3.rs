// SPDX-License-Identifier: MIT
//! The names of both widths of XXH3, over the erased source: secrets, and streams with their secrets.

#[cfg(feature = "alloc")]
use alloc::boxed::Box;

pub use crate::buffers::{FixedBuffer, FixedMutBuffer};
use crate::erased::twox_core::xxhash3 as source;
use crate::rattle;
pub use source::{
    OneshotWithSecretError, SecretTooShortError, SecretWithSeedError, DEFAULT_SECRET_LENGTH,
    SECRET_MINIMUM_LENGTH,
};

/// A seed and a secret of at least [`SECRET_MINIMUM_LENGTH`] bytes, for a `RawHasher`.
pub struct SecretBuffer<S>(pub(crate) source::SecretBuffer<S>);

impl<S: Clone> Clone for SecretBuffer<S> {
    fn clone(&self) -> Self {
        Self(rattle::allocated(rattle::Clone::clone(&self.0)))
    }
}

impl<S> SecretBuffer<S> {
    /// Returns the secret.
    ///
    /// ```
    /// use twox_hash::xxhash3_64::{SecretBuffer, DEFAULT_SECRET_LENGTH};
    ///
    /// assert_eq!(SecretBuffer::default().into_secret().len(), DEFAULT_SECRET_LENGTH);
    /// ```
    pub fn into_secret(self) -> S {
        self.0.into_secret()
    }
}

impl<S: FixedBuffer> SecretBuffer<S> {
    /// Creates a buffer of the seed and the secret as they are: up to 240 bytes the seed has an effect, above that the
    /// secret.
    ///
    /// # Errors
    ///
    /// Returns the secret in the error if it has fewer than [`SECRET_MINIMUM_LENGTH`] bytes.
    ///
    /// ```
    /// use twox_hash::xxhash3_64::SecretBuffer;
    ///
    /// assert!(SecretBuffer::new(7, [9; 136]).is_ok());
    /// let refused = SecretBuffer::new(7, [9; 135]).err().unwrap();
    /// assert_eq!(refused.into_secret(), [9; 135]);
    /// ```
    pub fn new(seed: u64, secret: S) -> Result<Self, SecretTooShortError<S>> {
        source::SecretBuffer::new(seed, secret).map(Self)
    }
}

impl<S: FixedMutBuffer> SecretBuffer<S> {
    /// Creates a buffer of the seed and the secret derived from it, which is written to `secret`.
    ///
    /// # Errors
    ///
    /// Returns the unchanged `secret` in the error if it is not exactly [`DEFAULT_SECRET_LENGTH`] bytes long.
    ///
    /// ```
    /// use twox_hash::xxhash3_64::SecretBuffer;
    ///
    /// let mut room = [0; 192];
    /// assert!(SecretBuffer::with_seed(7, &mut room).is_ok());
    /// assert_ne!(room, [0; 192]);
    /// assert!(SecretBuffer::with_seed(7, &mut [0; 191]).is_err());
    /// ```
    pub fn with_seed(seed: u64, secret: S) -> Result<Self, SecretWithSeedError<S>> {
        source::SecretBuffer::with_seed(seed, secret).map(Self)
    }
}

impl SecretBuffer<&'static [u8; DEFAULT_SECRET_LENGTH]> {
    /// Creates a buffer of the seed 0 and the default secret. Allocates nothing.
    ///
    /// ```
    /// use std::hash::Hasher as _;
    /// use twox_hash::xxhash3_64::{Hasher, RawHasher, SecretBuffer};
    ///
    /// let hasher = RawHasher::new(SecretBuffer::default());
    /// assert_eq!(hasher.finish(), Hasher::oneshot(b""));
    /// ```
    #[inline]
    pub const fn default() -> Self {
        Self(source::SecretBuffer::borrowed_default())
    }
}

#[cfg(feature = "alloc")]
impl SecretBuffer<Box<[u8]>> {
    /// Creates a buffer of the seed 0 and the default secret, allocated.
    ///
    /// ```
    /// use twox_hash::xxhash3_64::SecretBuffer;
    ///
    /// let secret = SecretBuffer::allocate_default().into_secret();
    /// assert_eq!(*secret, *SecretBuffer::default().into_secret());
    /// ```
    pub fn allocate_default() -> Self {
        Self::allocate_with_seed(source::DEFAULT_SEED)
    }

    /// Creates a buffer of the seed and the secret derived from it, allocated.
    ///
    /// ```
    /// use twox_hash::xxhash3_64::SecretBuffer;
    ///
    /// assert_eq!(SecretBuffer::allocate_with_seed(7).into_secret().len(), 192);
    /// ```
    #[inline]
    pub fn allocate_with_seed(seed: u64) -> Self {
        let room: Box<[u8]> = Box::new([0; DEFAULT_SECRET_LENGTH]);
        Self::with_seed(seed, room).ok().unwrap()
    }

    /// Creates a buffer of the seed and the secret as they are, as [`new`](Self::new) does.
    ///
    /// # Errors
    ///
    /// Returns the secret in the error if it has fewer than [`SECRET_MINIMUM_LENGTH`] bytes.
    ///
    /// ```
    /// use twox_hash::xxhash3_64::SecretBuffer;
    ///
    /// let buffer = SecretBuffer::allocate_with_seed_and_secret(7, [9; 200]).unwrap();
    /// assert_eq!(*buffer.into_secret(), [9; 200]);
    /// ```
    pub fn allocate_with_seed_and_secret(
        seed: u64,
        secret: impl Into<Box<[u8]>>,
    ) -> Result<Self, SecretTooShortError<Box<[u8]>>> {
        Self::new(seed, secret.into())
    }
}

// ---- Shared definitions of both modules ----

/// Defines the hashers of a width, except their calls `write` and `finish`.
macro_rules! xxh3_hashers {
    ($name:literal, $alias:ident, $module:ident, $value:ty, $finish:ident, $hasher:literal) => {
        #[cfg(feature = "alloc")]
        use crate::buffers::BoxedSlice;
        use crate::erased::twox_hash::$module as source;
        use crate::rattle;
        #[cfg(feature = "alloc")]
        use crate::rattle::Global;
        pub use crate::xxhash3::{
            FixedBuffer, FixedMutBuffer, OneshotWithSecretError, SecretBuffer, SecretTooShortError,
            SecretWithSeedError, DEFAULT_SECRET_LENGTH, SECRET_MINIMUM_LENGTH,
        };
        #[cfg(feature = "alloc")]
        use alloc::boxed::Box;

        #[doc = concat!($name, " of all bytes at once, or of bytes that come in pieces. A stream owns a secret that it was given, and derives that of a seed whenever it has an effect.")]
        ///
        /// ```
        #[doc = $hasher]
        #[doc = concat!("use twox_hash::", stringify!($alias), ";")]
        ///
        #[doc = concat!("let mut hasher = ", stringify!($alias), "::with_seed(1234);")]
        /// hasher.write(b"some");
        /// hasher.write(b" bytes");
        #[doc = concat!("assert_eq!(hasher.", stringify!($finish), "(), ", stringify!($alias), "::oneshot_with_seed(1234, b\"some bytes\"));")]
        /// ```
        pub struct Hasher(
            #[cfg(feature = "alloc")] source::LazyHasher,
            #[cfg(not(feature = "alloc"))] (),
        );

        impl Hasher {
            /// Hashes all bytes at once, with the default secret and the seed 0.
            ///
            /// ```
            #[doc = concat!("use twox_hash::", stringify!($alias), " as Hash;")]
            ///
            /// assert_eq!(Hash::oneshot(b"some bytes"), Hash::oneshot_with_seed(0, b"some bytes"));
            /// ```
            #[must_use]
            #[inline]
            pub fn oneshot(input: &[u8]) -> $value {
                source::Hasher::oneshot(input)
            }

            /// Hashes all bytes at once, with a seed: up to 240 bytes with the default secret, above that with the one
            /// derived from the seed.
            ///
            /// ```
            #[doc = concat!("use twox_hash::", stringify!($alias), " as Hash;")]
            ///
            /// assert_ne!(Hash::oneshot_with_seed(7, b"some bytes"), Hash::oneshot_with_seed(8, b"some bytes"));
            /// ```
            #[must_use]
            #[inline]
            pub fn oneshot_with_seed(seed: u64, input: &[u8]) -> $value {
                source::Hasher::oneshot_with_seed(seed, input)
            }

            /// Hashes all bytes at once, with a secret and the seed 0, at every length.
            ///
            /// # Errors
            ///
            /// If the secret has fewer than [`SECRET_MINIMUM_LENGTH`] bytes.
            ///
            /// ```
            #[doc = concat!("use twox_hash::", stringify!($alias), " as Hash;")]
            ///
            /// assert!(Hash::oneshot_with_secret(&[7; 136], b"some bytes").is_ok());
            /// assert!(Hash::oneshot_with_secret(&[7; 135], b"some bytes").is_err());
            /// ```
            #[inline]
            pub fn oneshot_with_secret(
                secret: &[u8],
                input: &[u8],
            ) -> Result<$value, OneshotWithSecretError> {
                source::Hasher::oneshot_with_secret(secret, input)
            }

            /// Hashes all bytes at once: up to 240 bytes with the seed and the default secret, above that with only
            /// the secret.
            ///
            /// # Errors
            ///
            /// If there are more than 240 bytes, and the secret has fewer than [`SECRET_MINIMUM_LENGTH`].
            ///
            /// ```
            #[doc = concat!("use twox_hash::", stringify!($alias), " as Hash;")]
            ///
            /// let hash = Hash::oneshot_with_seed_and_secret(7, &[], b"some bytes").unwrap();
            /// assert_eq!(hash, Hash::oneshot_with_seed(7, b"some bytes"));
            /// assert!(Hash::oneshot_with_seed_and_secret(7, &[], &[0; 241]).is_err());
            /// ```
            #[inline]
            pub fn oneshot_with_seed_and_secret(
                seed: u64,
                secret: &[u8],
                input: &[u8],
            ) -> Result<$value, OneshotWithSecretError> {
                source::Hasher::oneshot_with_seed_and_secret(seed, secret, input)
            }
        }

        #[cfg(feature = "alloc")]
        impl Hasher {
            /// Creates a stream of no bytes, with the seed 0 and the default secret.
            #[inline]
            pub fn new() -> Self {
                Self(source::LazyHasher::new(Global))
            }

            /// Creates a stream of no bytes, with a seed and the secret derived from it.
            #[inline]
            pub fn with_seed(seed: u64) -> Self {
                Self(source::LazyHasher::with_seed(Global, seed))
            }

            /// Creates a stream of no bytes, with a seed and a secret.
            ///
            /// # Errors
            ///
            /// Returns the secret in the error if it has fewer than [`SECRET_MINIMUM_LENGTH`] bytes.
            ///
            /// ```
            #[doc = concat!("use twox_hash::", stringify!($alias), " as Hash;")]
            ///
            /// assert!(Hash::with_seed_and_secret(7, [7; 136]).is_ok());
            /// let refused = Hash::with_seed_and_secret(7, [7; 135]).err().unwrap();
            /// assert_eq!(*refused.into_secret(), [7; 135]);
            /// ```
            pub fn with_seed_and_secret(
                seed: u64,
                secret: impl Into<Box<[u8]>>,
            ) -> Result<Self, SecretTooShortError<Box<[u8]>>> {
                source::LazyHasher::with_seed_and_secret(seed, BoxedSlice::of_box(secret.into()))
                    .map(Self)
                    .map_err(|refused| SecretTooShortError { secret: refused.into_secret().into_box() })
            }

            /// Returns the secret.
            ///
            /// ```
            #[doc = concat!("assert_eq!(twox_hash::", stringify!($alias), "::new().into_secret().len(), 192);")]
            /// ```
            pub fn into_secret(self) -> Box<[u8]> {
                rattle::allocated(self.0.into_secret()).into_box()
            }
        }

        #[cfg(feature = "alloc")]
        impl Clone for Hasher {
            fn clone(&self) -> Self {
                Self(rattle::allocated(rattle::Clone::clone(&self.0)))
            }
        }

        #[cfg(not(feature = "alloc"))]
        impl Clone for Hasher {
            fn clone(&self) -> Self {
                Self(())
            }
        }

        #[cfg(feature = "alloc")]
        impl Default for Hasher {
            #[inline]
            fn default() -> Self {
                Self::new()
            }
        }

        #[doc = concat!($name, " of bytes that come in pieces, over a secret of the caller's. It takes no memory.")]
        ///
        /// ```
        #[doc = $hasher]
        #[doc = concat!("use twox_hash::", stringify!($module), "::{Hasher, RawHasher, SecretBuffer};")]
        ///
        /// let secret = SecretBuffer::with_seed(1234, [0; 192]).unwrap();
        /// let mut hasher = RawHasher::new(secret);
        /// hasher.write(b"some bytes");
        #[doc = concat!("assert_eq!(hasher.", stringify!($finish), "(), Hasher::oneshot_with_seed(1234, b\"some bytes\"));")]
        /// ```
        pub struct RawHasher<S>(source::RawHasher<S>);

        impl<S: Clone> Clone for RawHasher<S> {
            fn clone(&self) -> Self {
                Self(rattle::allocated(rattle::Clone::clone(&self.0)))
            }
        }

        impl<S> RawHasher<S> {
            /// Creates a stream of no bytes, with this seed and secret.
            #[inline]
            pub fn new(secret_buffer: SecretBuffer<S>) -> Self {
                Self(source::RawHasher::new(secret_buffer.0))
            }

            /// Returns the secret.
            pub fn into_secret(self) -> S {
                self.0.into_secret()
            }
        }
    };
}
