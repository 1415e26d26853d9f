// SPDX-License-Identifier: MIT
//! The kernels: long inputs and chunks of streams, and what else depends on the target. The rest of each hash is the erased
//! source, which calls these: the contract of each function is that of the function in its place.
//!
//! Linux on x86-64 and on 64-bit ARM has the proved functions as assembly source. Other targets, Miri and `--cfg
//! twox_hash_no_assembly` compile the erased source for these too.
#![allow(
    dead_code,
    unused_imports,
    reason = "each hash is a feature, and so are the calls that it makes"
)]

#[cfg_attr(
    all(
        not(any(miri, twox_hash_no_assembly)),
        target_os = "linux",
        target_pointer_width = "64",
        any(target_env = "gnu", target_env = "musl"),
        any(
            all(target_arch = "x86_64", target_feature = "sse2"),
            all(target_arch = "aarch64", target_endian = "little")
        )
    ),
    path = "kernels/assembly.rs"
)]
#[cfg_attr(
    not(all(
        not(any(miri, twox_hash_no_assembly)),
        target_os = "linux",
        target_pointer_width = "64",
        any(target_env = "gnu", target_env = "musl"),
        any(
            all(target_arch = "x86_64", target_feature = "sse2"),
            all(target_arch = "aarch64", target_endian = "little")
        )
    )),
    path = "kernels/source.rs"
)]
mod chosen;

pub use chosen::{long_128, long_64, write, write_blocks_32, BYTES_FOR_BLOCKS};

use crate::erased::twox_core::width_128::Wide;
use crate::erased::twox_core::xxhash3::{derived_secret, large, Secret};

/// Streams of XXH32 and XXH64 add their stripes in pairs, of which rustc makes faster code.
pub const IN_PAIRS: bool = true;

/// The kernel of every call that names none, in the erased source.
#[cfg(all(not(miri), target_arch = "x86_64", target_feature = "sse2"))]
pub type Kernel = large::lanes4::Impl;
#[cfg(all(
    not(miri),
    target_arch = "aarch64",
    target_endian = "little",
    target_feature = "neon"
))]
pub type Kernel = large::halves4::Impl;
#[cfg(not(any(
    all(not(miri), target_arch = "x86_64", target_feature = "sse2"),
    all(
        not(miri),
        target_arch = "aarch64",
        target_endian = "little",
        target_feature = "neon"
    )
)))]
pub type Kernel = large::scalar::Impl;

/// Returns the 64-bit hash of more than 240 bytes by the secret derived from a seed.
#[inline(always)]
pub fn long_derived_64(seed: u64, input: &[u8]) -> u64 {
    let secret = derived_secret(seed);
    long_64(crate::buffers::secret_of(&secret), input)
}

/// Returns the 128-bit hash of more than 240 bytes by the secret derived from a seed.
#[inline(always)]
pub fn long_derived_128(seed: u64, input: &[u8]) -> Wide {
    let secret = derived_secret(seed);
    long_128(crate::buffers::secret_of(&secret), input)
}

/// Tests both lengths: an input of 129 to 240 bytes, and a secret of 136 or more. The loads of their words then need no test.
#[inline(always)]
pub fn expect_middle(input: &[u8], secret: Secret<'_>) {
    if !matches!(input.len(), 129..=240) || secret.bytes.len() < 136 {
        crate::rattle::out_of_bounds();
    }
}
