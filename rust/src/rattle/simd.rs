// SPDX-License-Identifier: MIT
//! The vectors of `std::simd` that the source uses: in registers on x86-64 with SSE2 and on 64-bit ARM, elsewhere and under
//! Miri as arrays. "An operation on vectors is the operation on words in each lane, modulo 2 to the width."
#![allow(
    unused_macros,
    unused_imports,
    reason = "each target takes one set of vectors"
)]

mod arrays;
#[macro_use]
mod registers;
#[cfg(all(
    not(miri),
    target_arch = "aarch64",
    target_endian = "little",
    target_feature = "neon"
))]
mod neon;
#[cfg(all(not(miri), target_arch = "x86_64", target_feature = "sse2"))]
pub mod x86_64;

#[cfg(not(any(
    all(not(miri), target_arch = "x86_64", target_feature = "sse2"),
    all(
        not(miri),
        target_arch = "aarch64",
        target_endian = "little",
        target_feature = "neon"
    )
)))]
pub use arrays::*;
#[cfg(all(
    not(miri),
    target_arch = "aarch64",
    target_endian = "little",
    target_feature = "neon"
))]
pub use neon::*;
#[cfg(all(not(miri), target_arch = "x86_64", target_feature = "avx2"))]
pub use x86_64::avx2::*;
#[cfg(all(
    not(miri),
    target_arch = "x86_64",
    target_feature = "sse2",
    not(target_feature = "avx2")
))]
pub use x86_64::sse2::*;
