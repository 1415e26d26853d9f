// SPDX-License-Identifier: MIT
// crates/xxh_io/src/kind.rt without its contracts, written by rust/erase --programs: change that file.

//! The hash algorithms.

/// The hash algorithm of a digest line.
#[derive(Clone, Copy, Debug, PartialEq, Eq)]
pub enum Kind {
    /// XXH32, in 8 digits. Its seeds are below 2^32.
    X32,
    /// XXH64, in 16 digits.
    X64,
    /// XXH3 64-bit, in 16 digits.
    X3_64,
    /// XXH3 128-bit, in 32 digits.
    X3_128,
}

impl Kind {
    /// Returns the number of digits of the line.
    pub fn digits(self) -> usize {
        match self {
            Kind::X32 => 8,
            Kind::X64 | Kind::X3_64 => 16,
            Kind::X3_128 => 32,
        }
    }

    /// Returns the maximum seed of the algorithm.
    pub fn most_seed(self) -> u64 {
        match self {
            Kind::X32 => u64::from(u32::MAX),
            Kind::X64 | Kind::X3_64 | Kind::X3_128 => u64::MAX,
        }
    }
}

/// The algorithms whose hashers have saved states.
#[derive(Clone, Copy, Debug, PartialEq, Eq)]
pub enum SavedKind {
    /// XXH32.
    X32,
    /// XXH64.
    X64,
}
