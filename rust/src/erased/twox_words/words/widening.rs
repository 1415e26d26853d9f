// SPDX-License-Identifier: MIT
// crates/twox_words/src/words/widening.rt without its contracts, written by rust/erase: change that file.

//! Conversions to a wider type that keep the value.

/// Converts to `u32` without changing the value.
pub trait IntoU32 {
    /// Returns this number as a `u32`.
    fn into_u32(self) -> u32;
}

impl IntoU32 for u8 {
    #[inline(always)]
    fn into_u32(self) -> u32 {
        u32::from(self)
    }
}

/// Converts to `u64` without changing the value.
pub trait IntoU64 {
    /// Returns this number as a `u64`.
    fn into_u64(self) -> u64;
}

impl IntoU64 for u8 {
    #[inline(always)]
    fn into_u64(self) -> u64 {
        self.into()
    }
}

impl IntoU64 for u32 {
    #[inline(always)]
    fn into_u64(self) -> u64 {
        u64::from(self)
    }
}

impl IntoU64 for usize {
    #[inline(always)]
    fn into_u64(self) -> u64 {
        self as u64
    }
}

/// Converts to `u128` without changing the value.
pub trait IntoU128 {
    /// Returns this number as a `u128`.
    fn into_u128(self) -> u128;
}

impl IntoU128 for u64 {
    #[inline(always)]
    fn into_u128(self) -> u128 {
        u128::from(self)
    }
}
