// SPDX-License-Identifier: MIT
//! Code shared by XXH32 and XXH64: their hashers differ in the width of a word and the length of a stripe.

/// Defines the module of a plain hash.
macro_rules! plain_hash {
    (
        $name:literal, $alias:ident, $module:ident, $word:ty, $stripe:literal,
        $($example:literal)*
    ) => {
        use core::fmt;
        use core::hash::{self, BuildHasher};

        use crate::erased::twox_plain::$module as source;
        use crate::rattle;

        #[doc = concat!($name, " of all bytes at once, or of bytes that come in pieces.")]
        ///
        /// ```
        /// use std::hash::Hasher as _;
        #[doc = concat!("use twox_hash::", stringify!($alias), ";")]
        ///
        $(#[doc = $example])*
        /// ```
        ///
        /// Two hashers are equal if they have the same seed and have hashed the same bytes; hashed bytes that are
        /// still in memory are compared too.
        #[derive(PartialEq)]
        pub struct Hasher(source::Hasher);

        impl Hasher {
            /// Hashes all bytes at once.
            ///
            /// ```
            #[doc = concat!("use twox_hash::", stringify!($alias), ";")]
            ///
            #[doc = concat!("let hash = ", stringify!($alias), "::oneshot(1234, b\"some bytes\");")]
            #[doc = concat!("assert_ne!(hash, ", stringify!($alias), "::oneshot(1234, b\"some other bytes\"));")]
            /// ```
            #[must_use]
            #[inline]
            pub fn oneshot(seed: $word, data: &[u8]) -> $word {
                source::Hasher::oneshot(seed, data)
            }

            /// Creates a hasher of no bytes, also in a `static`.
            ///
            /// ```
            #[doc = concat!("static EMPTY: twox_hash::", stringify!($alias), " = twox_hash::", stringify!($alias), "::with_seed(7);")]
            ///
            /// let hasher = EMPTY.clone();
            /// assert_eq!(hasher.seed(), 7);
            /// ```
            #[must_use]
            #[inline]
            pub const fn with_seed(seed: $word) -> Self {
                Self(source::Hasher::with_seed(seed))
            }

            /// Returns the seed of the hasher.
            ///
            /// ```
            #[doc = concat!("assert_eq!(twox_hash::", stringify!($alias), "::with_seed(7).seed(), 7);")]
            /// ```
            pub const fn seed(&self) -> $word {
                self.0.seed()
            }

            /// Total bytes hashed, saturating at `u64::MAX`.
            ///
            /// ```
            /// use std::hash::Hasher as _;
            ///
            #[doc = concat!("let mut hasher = twox_hash::", stringify!($alias), "::default();")]
            /// hasher.write(b"some bytes");
            /// assert_eq!(hasher.total_len(), 10);
            /// ```
            pub const fn total_len(&self) -> u64 {
                self.0.total_len()
            }
        }

        impl Clone for Hasher {
            #[inline]
            fn clone(&self) -> Self {
                Self(rattle::allocated(rattle::Clone::clone(&self.0)))
            }
        }

        /// Creates a hasher with the seed 0.
        impl Default for Hasher {
            #[inline]
            fn default() -> Self {
                Self::with_seed(0)
            }
        }

        impl hash::Hasher for Hasher {
            hasher_calls!(inline);
        }

        impl fmt::Debug for Hasher {
            fn fmt(&self, f: &mut fmt::Formatter<'_>) -> fmt::Result {
                let record = self.0.to_state();
                let source::Core { v1: acc1, v2: acc2, v3: acc3, v4: acc4 } = record.core;
                let data = words(&record.buffer);
                f.debug_struct("Hasher")
                    .field("seed", &record.seed)
                    .field("accumulators", &Accumulators { acc1, acc2, acc3, acc4 })
                    .field("buffer", &Buffer { offset: record.buffer_usage, data })
                    .field("length", &record.total_len)
                    .finish()
            }
        }

        #[derive(Debug)]
        #[allow(dead_code, reason = "they are printed")]
        struct Accumulators {
            acc1: $word,
            acc2: $word,
            acc3: $word,
            acc4: $word,
        }

        #[derive(Debug)]
        #[allow(dead_code, reason = "they are printed")]
        struct Buffer {
            offset: usize,
            data: [$word; 4],
        }

        // The buffer as words of the processor.
        fn words(buffer: &[u8; $stripe]) -> [$word; 4] {
            const BYTES: usize = $stripe / 4;
            core::array::from_fn(|i| <$word>::from_ne_bytes(*crate::rattle::array_at(buffer, i * BYTES)))
        }

        /// Builds hashers of one seed, for example for a map.
        ///
        /// ```
        /// use std::collections::HashMap;
        #[doc = concat!("use twox_hash::", stringify!($module), "::State;")]
        ///
        /// let mut colours = HashMap::with_hasher(State::with_seed(7));
        /// colours.insert("sky", "blue");
        /// assert_eq!(colours["sky"], "blue");
        /// ```
        #[derive(Clone)]
        pub struct State($word);

        impl State {
            /// Creates the state whose hashers have this seed.
            pub fn with_seed(seed: $word) -> Self {
                Self(seed)
            }
        }

        impl BuildHasher for State {
            type Hasher = Hasher;

            #[inline]
            fn build_hasher(&self) -> Hasher {
                Hasher::with_seed(self.0)
            }
        }

        /// Builds hashers of one random seed.
        ///
        /// ```
        /// use std::collections::HashMap;
        #[doc = concat!("use twox_hash::", stringify!($module), "::RandomState;")]
        ///
        /// let mut colours = HashMap::<_, _, RandomState>::default();
        /// colours.insert("sky", "blue");
        /// assert_eq!(colours["sky"], "blue");
        /// ```
        #[cfg(feature = "random")]
        #[derive(Clone)]
        pub struct RandomState(State);

        #[cfg(feature = "random")]
        impl Default for RandomState {
            fn default() -> Self {
                // The seed is the low bits of a hash by the random keys that the standard library draws for its maps.
                Self(State::with_seed(std::collections::hash_map::RandomState::new().hash_one(()) as $word))
            }
        }

        #[cfg(feature = "random")]
        impl BuildHasher for RandomState {
            type Hasher = Hasher;

            fn build_hasher(&self) -> Hasher {
                self.0.build_hasher()
            }
        }

        // The saved fields of a hasher, under the names that saved texts of all versions have.
        #[cfg(feature = "serialize")]
        #[derive(serde::Serialize, serde::Deserialize)]
        #[serde(rename = "Shim")]
        struct Saved {
            total_len: u64,
            seed: $word,
            core: Core,
            buffer: [u8; $stripe],
            buffer_usage: usize,
        }

        #[cfg(feature = "serialize")]
        #[derive(serde::Serialize, serde::Deserialize)]
        struct Core {
            v1: $word,
            v2: $word,
            v3: $word,
            v4: $word,
        }

        #[cfg(feature = "serialize")]
        impl serde::Serialize for Hasher {
            fn serialize<S: serde::Serializer>(&self, serializer: S) -> Result<S::Ok, S::Error> {
                let record = self.0.to_state();
                let source::Core { v1, v2, v3, v4 } = record.core;
                let saved = Saved {
                    total_len: record.total_len,
                    seed: record.seed,
                    core: Core { v1, v2, v3, v4 },
                    buffer: record.buffer,
                    buffer_usage: record.buffer_usage,
                };
                saved.serialize(serializer)
            }
        }

        /// Accepts a record only if hashing some bytes produces it.
        #[cfg(feature = "serialize")]
        impl<'de> serde::Deserialize<'de> for Hasher {
            fn deserialize<D: serde::Deserializer<'de>>(deserializer: D) -> Result<Self, D::Error> {
                let saved = Saved::deserialize(deserializer)?;
                let Core { v1, v2, v3, v4 } = saved.core;
                let record = source::SavedState {
                    total_len: saved.total_len,
                    seed: saved.seed,
                    core: source::Core { v1, v2, v3, v4 },
                    buffer: saved.buffer,
                    buffer_usage: saved.buffer_usage,
                };
                let text = concat!("no bytes lead to this record of ", $name);
                source::Hasher::from_state(record).map(Self).map_err(|_| serde::de::Error::custom(text))
            }
        }
    };
}
