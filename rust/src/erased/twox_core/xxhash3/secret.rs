// SPDX-License-Identifier: MIT
// crates/twox_core/src/xxhash3/secret.rt without its contracts, written by rust/erase: change that file.

//! Secrets of at least 136 bytes, and the parts of them that each range of lengths reads.

use super::parts::{array_at, chunks_at, pair_at, pairs_at};
use super::{DEFAULT_SECRET_LENGTH, DefaultSecret};
use std::{error, fmt};
use crate::erased::twox_words::words::{u32_at, u64_at};

/// The minimum length of a secret.
pub const SECRET_MINIMUM_LENGTH: usize = 136;

/// A borrowed secret of at least 136 bytes.
#[derive(Clone, Copy)]
pub struct Secret<'a> {
    pub(crate) bytes: &'a [u8],
}

/// The secret has fewer than 136 bytes.
#[derive(Clone, Copy, Debug, PartialEq, Eq)]
pub struct Error(());

impl fmt::Display for Error {
    fn fmt(&self, f: &mut fmt::Formatter<'_>) -> fmt::Result {
        f.write_str("The secret must have at least 136 bytes")
    }
}

impl error::Error for Error {}

/// The error of a one-shot for a secret of fewer than 136 bytes.
#[derive(Clone, Copy, Debug, PartialEq, Eq)]
pub struct OneshotWithSecretError(Error);

impl From<Error> for OneshotWithSecretError {
    fn from(error: Error) -> Self {
        OneshotWithSecretError(error)
    }
}

impl fmt::Display for OneshotWithSecretError {
    fn fmt(&self, f: &mut fmt::Formatter<'_>) -> fmt::Result {
        fmt::Display::fmt(&self.0, f)
    }
}

impl error::Error for OneshotWithSecretError {}

impl<'a> Secret<'a> {
    /// Wraps `bytes` as a secret.
    ///
    /// # Errors
    ///
    /// `Error` if there are fewer than 136 bytes.
    #[inline(always)]
    pub fn new(bytes: &'a [u8]) -> Result<Secret<'a>, Error> {
        if bytes.len() >= SECRET_MINIMUM_LENGTH {
            Ok(Secret { bytes })
        } else {
            Err(Error(()))
        }
    }

    /// Returns the view of the words that XXH3 64-bit reads.
    #[inline(always)]
    pub fn for_64(self) -> Secret64BitView<'a> {
        Secret64BitView { secret: self }
    }

    /// Returns the view of the words that XXH3 128-bit reads.
    #[inline(always)]
    pub fn for_128(self) -> Secret128BitView<'a> {
        Secret128BitView { secret: self }
    }

    /// Returns the first 136 bytes. Inputs of up to 240 bytes read no others.
    #[inline(always)]
    pub fn minimum(self) -> &'a [u8; SECRET_MINIMUM_LENGTH] {
        array_at(self.bytes, 0)
    }

    // Returns the bytes of a secret as long as the default one.
    #[inline(always)]
    pub(crate) fn of_default_length(self) -> &'a DefaultSecret {
        array_at::<DEFAULT_SECRET_LENGTH>(self.bytes, 0)
    }

    /// Returns the first eight chunks of 16 bytes.
    #[inline(always)]
    pub fn words_for_17_to_128(self) -> &'a [[u8; 16]] {
        chunks_at(self.bytes, 0)
    }

    /// Returns the 64 bytes from byte `8 * i` on. The caller proves that `i` is below `n_stripes()`.
    #[inline(always)]
    pub fn stripe(self, i: usize) -> &'a [u8; 64] {
        array_at(self.bytes, 8 * i)
    }

    // Returns the 88 bytes from byte `8 * i` on, which four stripes use.
    #[inline(always)]
    pub(crate) fn four_stripes(self, i: usize) -> &'a [u8; 88] {
        array_at(self.bytes, i * 8)
    }

    /// Returns the last 64 bytes.
    #[inline(always)]
    pub fn last_stripe(self) -> &'a [u8; 64] {
        array_at(self.bytes, self.len() - 64)
    }

    /// Returns the 64 bytes that end seven bytes before the secret's end.
    #[inline(always)]
    pub fn last_stripe_secret_better_name(self) -> &'a [u8; 64] {
        array_at(self.bytes, self.len() - 71)
    }

    /// Returns the 64 bytes from byte 11 on.
    #[inline(always)]
    pub fn final_secret(self) -> &'a [u8; 64] {
        array_at(self.bytes, 11)
    }

    /// Returns the number of bytes.
    #[inline(always)]
    pub fn len(self) -> usize {
        self.bytes.len()
    }

    /// Returns the number of stripes from one scramble to the next.
    #[inline(always)]
    pub fn n_stripes(self) -> usize {
        (self.len() - 64) / 8
    }

    /// True if there are at least 136 bytes, as in every secret.
    #[inline(always)]
    pub fn is_valid(self) -> bool {
        self.len() >= SECRET_MINIMUM_LENGTH
    }
}

/// The words and chunks that XXH3 64-bit reads of a secret, up to 240 bytes of input.
#[derive(Clone, Copy)]
pub struct Secret64BitView<'a> {
    secret: Secret<'a>,
}

impl<'a> Secret64BitView<'a> {
    /// Returns the eight-byte words at 56 and 64.
    #[inline(always)]
    pub fn words_for_0(self) -> [u64; 2] {
        let bytes = self.secret.bytes;
        [u64_at(bytes, 56), u64_at(bytes, 64)]
    }

    /// Returns the four-byte words at 0 and 4.
    #[inline(always)]
    pub fn words_for_1_to_3(self) -> [u32; 2] {
        let bytes = self.secret.bytes;
        [u32_at(bytes, 0), u32_at(bytes, 4)]
    }

    /// Returns the eight-byte words at 8 and 16.
    #[inline(always)]
    pub fn words_for_4_to_8(self) -> [u64; 2] {
        let bytes = self.secret.bytes;
        [u64_at(bytes, 8), u64_at(bytes, 16)]
    }

    /// Returns the eight-byte words at 24, 32, 40 and 48.
    #[inline(always)]
    pub fn words_for_9_to_16(self) -> [u64; 4] {
        let bytes = self.secret.bytes;
        [
            u64_at(bytes, 24),
            u64_at(bytes, 32),
            u64_at(bytes, 40),
            u64_at(bytes, 48),
        ]
    }

    /// Returns eight chunks of 16 bytes from byte 0 on.
    #[inline(always)]
    pub fn words_for_129_to_240_part1(self) -> &'a [[u8; 16]] {
        chunks_at(self.secret.bytes, 0)
    }

    /// Returns eight chunks of 16 bytes from byte 3 on.
    #[inline(always)]
    pub fn words_for_129_to_240_part2(self) -> &'a [[u8; 16]] {
        chunks_at(self.secret.bytes, 3)
    }

    /// Returns the 16 bytes from byte 119 on.
    #[inline(always)]
    pub fn words_for_129_to_240_part3(self) -> &'a [u8; 16] {
        array_at(self.secret.bytes, 119)
    }
}

/// The words and chunks that XXH3 128-bit reads of a secret.
#[derive(Clone, Copy)]
pub struct Secret128BitView<'a> {
    secret: Secret<'a>,
}

impl<'a> Secret128BitView<'a> {
    /// Returns the eight-byte words at 64, 72, 80 and 88.
    #[inline(always)]
    pub fn words_for_0(self) -> [u64; 4] {
        let bytes = self.secret.bytes;
        [
            u64_at(bytes, 64),
            u64_at(bytes, 72),
            u64_at(bytes, 80),
            u64_at(bytes, 88),
        ]
    }

    /// Returns the four-byte words at 0, 4, 8 and 12.
    #[inline(always)]
    pub fn words_for_1_to_3(self) -> [u32; 4] {
        let bytes = self.secret.bytes;
        [
            u32_at(bytes, 0),
            u32_at(bytes, 4),
            u32_at(bytes, 8),
            u32_at(bytes, 12),
        ]
    }

    /// Returns the eight-byte words at 16 and 24.
    #[inline(always)]
    pub fn words_for_4_to_8(self) -> [u64; 2] {
        let bytes = self.secret.bytes;
        [u64_at(bytes, 16), u64_at(bytes, 24)]
    }

    /// Returns the eight-byte words at 32, 40, 48 and 56.
    #[inline(always)]
    pub fn words_for_9_to_16(self) -> [u64; 4] {
        let bytes = self.secret.bytes;
        [
            u64_at(bytes, 32),
            u64_at(bytes, 40),
            u64_at(bytes, 48),
            u64_at(bytes, 56),
        ]
    }

    /// Returns four pairs of 16 bytes from byte 0 on.
    #[inline(always)]
    pub fn words_for_129_to_240_part1(self) -> &'a [[[u8; 16]; 2]] {
        pairs_at(self.secret.bytes, 0)
    }

    /// Returns four pairs of 16 bytes from byte 3 on.
    #[inline(always)]
    pub fn words_for_129_to_240_part2(self) -> &'a [[[u8; 16]; 2]] {
        pairs_at(self.secret.bytes, 3)
    }

    /// Returns the 32 bytes from byte 103 on, as a pair of 16 bytes.
    #[inline(always)]
    pub fn words_for_129_to_240_part3(self) -> &'a [[u8; 16]; 2] {
        pair_at(self.secret.bytes, 103)
    }

    /// Returns the 64 bytes that end eleven bytes before the secret's end.
    #[inline(always)]
    pub fn final_secret(self) -> &'a [u8; 64] {
        array_at(self.secret.bytes, self.secret.len() - 75)
    }
}
