// SPDX-License-Identifier: MIT
//! The vectors of `std::simd` that the source uses, in registers of 64-bit ARM.
#![allow(
    non_camel_case_types,
    unsafe_op_in_unsafe_fn,
    unused,
    reason = "the names of `std::simd`; the set of vectors is whole"
)]

use core::arch::aarch64::*;
use core::mem::transmute;
use core::ops::{Add, BitAnd, BitXor, Mul, Shl, Shr, Sub};

vectors! { uint64x2_t, by, u64x2 u32x4 u8x16 1 2 4 16; u64x4 u32x8 u8x32 2 4 8 32; u64x8 u32x16 u8x64 4 8 16 64; }

impl u32x4 {
    /// Returns the items as wider ones.
    #[inline(always)]
    #[allow(
        clippy::extra_unused_type_parameters,
        reason = "callers name it, as in Rattle"
    )]
    pub fn cast<T>(self) -> u64x4 {
        let halves = by::halves(self.0[0]);
        // SAFETY: every 64-bit ARM that this module is compiled for has NEON.
        u64x4(unsafe {
            [
                vmovl_u32(vget_low_u32(halves)),
                vmovl_u32(vget_high_u32(halves)),
            ]
        })
    }
}

mod by {
    use super::*;
    pub use core::arch::aarch64::{
        vaddq_u64 as add64, vandq_u64 as and, veorq_u64 as xor, vsubq_u64 as sub64,
    };

    /// Returns the register as four halves: bits are bits.
    #[inline(always)]
    pub fn halves(a: uint64x2_t) -> uint32x4_t {
        // SAFETY: as above.
        unsafe { vreinterpretq_u32_u64(a) }
    }

    macro_rules! by_halves {
        ($($name:ident $by:ident)*) => {$(
            #[inline(always)]
            pub unsafe fn $name(a: uint64x2_t, b: uint64x2_t) -> uint64x2_t {
                vreinterpretq_u64_u32($by(halves(a), halves(b)))
            }
        )*};
    }
    by_halves! { add32 vaddq_u32 sub32 vsubq_u32 mul32 vmulq_u32 }

    /// Returns the product modulo 2^64: the low halves multiplied, plus 2^32 times the two mixed products.
    #[inline(always)]
    pub unsafe fn mul64(a: uint64x2_t, b: uint64x2_t) -> uint64x2_t {
        let (al, bl) = (vmovn_u64(a), vmovn_u64(b));
        let (ah, bh) = (vshrn_n_u64::<32>(a), vshrn_n_u64::<32>(b));
        // Products of 32 bits are enough for the upper half.
        let upper = vadd_u32(vmul_u32(ah, bl), vmul_u32(al, bh));
        vaddq_u64(vmull_u32(al, bl), vshll_n_u32::<32>(upper))
    }

    // Lane by lane: for a count that is the same constant in each, LLVM makes one instruction.
    #[inline(always)]
    pub unsafe fn shr64(a: uint64x2_t, b: uint64x2_t) -> uint64x2_t {
        let (a, b) = (
            transmute::<uint64x2_t, [u64; 2]>(a),
            transmute::<uint64x2_t, [u64; 2]>(b),
        );
        transmute::<[u64; 2], uint64x2_t>([a[0] >> b[0], a[1] >> b[1]])
    }

    #[inline(always)]
    pub unsafe fn shl64(a: uint64x2_t, b: uint64x2_t) -> uint64x2_t {
        let (a, b) = (
            transmute::<uint64x2_t, [u64; 2]>(a),
            transmute::<uint64x2_t, [u64; 2]>(b),
        );
        transmute::<[u64; 2], uint64x2_t>([a[0] << b[0], a[1] << b[1]])
    }

    #[inline(always)]
    pub unsafe fn shl32(a: uint64x2_t, b: uint64x2_t) -> uint64x2_t {
        let (a, b) = (
            transmute::<uint64x2_t, [u32; 4]>(a),
            transmute::<uint64x2_t, [u32; 4]>(b),
        );
        transmute::<[u32; 4], uint64x2_t>([a[0] << b[0], a[1] << b[1], a[2] << b[2], a[3] << b[3]])
    }
}
