// SPDX-License-Identifier: MIT
//! The vectors of `std::simd` that the source uses, in registers of x86-64.
#![allow(
    non_camel_case_types,
    unsafe_op_in_unsafe_fn,
    unused,
    reason = "the names of `std::simd`; each set of vectors is whole"
)]

use core::arch::x86_64::*;
use core::mem::transmute;
use core::ops::{Add, BitAnd, BitXor, Mul, Shl, Shr, Sub};

/// Registers of 128 bits, which every x86-64 has.
pub mod sse2 {
    use super::*;

    vectors! { __m128i, by, u64x2 u32x4 u8x16 1 2 4 16; u64x4 u32x8 u8x32 2 4 8 32; u64x8 u32x16 u8x64 4 8 16 64; }

    impl u32x4 {
        /// Returns the items as wider ones.
        #[inline(always)]
        #[allow(
            clippy::extra_unused_type_parameters,
            reason = "callers name it, as in Rattle"
        )]
        pub fn cast<T>(self) -> u64x4 {
            u64x4::from_array(self.to_array().map(u64::from))
        }
    }

    mod by {
        use super::*;
        pub use core::arch::x86_64::{
            _mm_add_epi32 as add32, _mm_add_epi64 as add64, _mm_and_si128 as and,
            _mm_sub_epi32 as sub32, _mm_sub_epi64 as sub64, _mm_xor_si128 as xor,
        };

        /// Returns the product modulo 2^64: the low halves multiplied, plus 2^32 times the two mixed products.
        #[inline(always)]
        pub unsafe fn mul64(a: __m128i, b: __m128i) -> __m128i {
            let (ah, bh) = (_mm_srli_epi64(a, 32), _mm_srli_epi64(b, 32));
            let upper = _mm_add_epi64(_mm_mul_epu32(ah, b), _mm_mul_epu32(a, bh));
            _mm_add_epi64(_mm_mul_epu32(a, b), _mm_slli_epi64(upper, 32))
        }

        #[inline(always)]
        pub unsafe fn mul32(a: __m128i, b: __m128i) -> __m128i {
            let odd = _mm_mul_epu32(_mm_srli_epi64(a, 32), _mm_srli_epi64(b, 32));
            let even = _mm_and_si128(_mm_mul_epu32(a, b), _mm_set1_epi64x(0xffff_ffff));
            _mm_or_si128(even, _mm_slli_epi64(odd, 32))
        }

        // The instruction shifts both lanes by one count, so each lane has a shift of its own.
        #[inline(always)]
        pub unsafe fn shr64(a: __m128i, b: __m128i) -> __m128i {
            let (front, back) = (
                _mm_srl_epi64(a, b),
                _mm_srl_epi64(a, _mm_unpackhi_epi64(b, b)),
            );
            _mm_unpacklo_epi64(front, _mm_unpackhi_epi64(back, back))
        }

        #[inline(always)]
        pub unsafe fn shl64(a: __m128i, b: __m128i) -> __m128i {
            let (front, back) = (
                _mm_sll_epi64(a, b),
                _mm_sll_epi64(a, _mm_unpackhi_epi64(b, b)),
            );
            _mm_unpacklo_epi64(front, _mm_unpackhi_epi64(back, back))
        }

        #[inline(always)]
        pub unsafe fn shl32(a: __m128i, b: __m128i) -> __m128i {
            let (a, b) = (
                transmute::<__m128i, [u32; 4]>(a),
                transmute::<__m128i, [u32; 4]>(b),
            );
            transmute::<[u32; 4], __m128i>([a[0] << b[0], a[1] << b[1], a[2] << b[2], a[3] << b[3]])
        }
    }
}

/// Registers of 256 bits. Only functions with the target feature `avx2` may use them.
pub mod avx2 {
    pub use super::sse2::{u32x4, u64x2, u8x16};
    use super::*;

    vectors! { __m256i, by, u64x4 u32x8 u8x32 1 4 8 32; u64x8 u32x16 u8x64 2 8 16 64; }

    mod by {
        use super::*;
        pub use core::arch::x86_64::{
            _mm256_add_epi32 as add32, _mm256_add_epi64 as add64, _mm256_and_si256 as and,
            _mm256_mullo_epi32 as mul32, _mm256_sllv_epi32 as shl32, _mm256_sllv_epi64 as shl64,
            _mm256_srlv_epi64 as shr64, _mm256_sub_epi32 as sub32, _mm256_sub_epi64 as sub64,
            _mm256_xor_si256 as xor,
        };

        #[inline(always)]
        pub unsafe fn mul64(a: __m256i, b: __m256i) -> __m256i {
            let (ah, bh) = (_mm256_srli_epi64(a, 32), _mm256_srli_epi64(b, 32));
            let upper = _mm256_add_epi64(_mm256_mul_epu32(ah, b), _mm256_mul_epu32(a, bh));
            _mm256_add_epi64(_mm256_mul_epu32(a, b), _mm256_slli_epi64(upper, 32))
        }
    }
}
