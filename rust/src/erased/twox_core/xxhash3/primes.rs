// SPDX-License-Identifier: MIT
// crates/twox_core/src/xxhash3/primes.rt without its contracts, written by rust/erase: change that file.

//! The primes that XXH3 multiplies by: the xxHash specification, "XXH3 algorithm overview".

/// The first prime of XXH32.
pub const PRIME32_1: u64 = 0x9E37_79B1;

/// The second prime of XXH32.
pub const PRIME32_2: u64 = 0x85EB_CA77;

/// The third prime of XXH32.
pub const PRIME32_3: u64 = 0xC2B2_AE3D;

/// The first prime of XXH64.
pub const PRIME64_1: u64 = 0x9E37_79B1_85EB_CA87;

/// The second prime of XXH64.
pub const PRIME64_2: u64 = 0xC2B2_AE3D_27D4_EB4F;

/// The third prime of XXH64.
pub const PRIME64_3: u64 = 0x1656_67B1_9E37_79F9;

/// The fourth prime of XXH64.
pub const PRIME64_4: u64 = 0x85EB_CA77_C2B2_AE63;

/// The fifth prime of XXH64.
pub const PRIME64_5: u64 = 0x27D4_EB2F_1656_67C5;

/// The factor of the final mixing step of XXH3.
pub const PRIME_MX1: u64 = 0x1656_6791_9E37_79F9;

/// The factor of the stronger mixing of 4 to 8 bytes.
pub const PRIME_MX2: u64 = 0x9FB2_1C65_1E98_DF25;
