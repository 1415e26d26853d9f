// SPDX-License-Identifier: MIT
//! The kernel of four lanes over registers of 256 bits: the same files as the other, over another `simd`.

use crate::rattle::simd::x86_64::avx2 as simd;

#[rustfmt::skip]
#[path = "../erased/twox_core/xxhash3/large/four.rs"]
mod four;
#[rustfmt::skip]
#[path = "../erased/twox_core/xxhash3/large/lanes4.rs"]
pub mod lanes4;
#[rustfmt::skip]
#[path = "../erased/twox_core/xxhash3/large/word.rs"]
mod word;
