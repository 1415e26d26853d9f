// SPDX-License-Identifier: MIT
//! The instruction sets of the processor and the system, detected once, with or without the standard library.

use core::arch::x86_64::{__cpuid, __cpuid_count, _xgetbv};
use core::sync::atomic::{AtomicU8, Ordering::Relaxed};

/// The x86-64 level of an instruction set.
#[derive(Clone, Copy, PartialEq, PartialOrd)]
pub enum Level {
    /// Below x86-64-v3.
    Base,
    /// x86-64-v3.
    V3,
    /// x86-64-v4.
    V4,
}

macro_rules! target_has {
    ($($feature:literal),*) => { cfg!(all($(target_feature = $feature),*)) };
}

/// True if the compiler's target has x86-64-v3.
pub const IS_BUILT_FOR_V3: bool =
    target_has!("avx2", "bmi1", "bmi2", "f16c", "fma", "lzcnt", "movbe");

/// True if the compiler's target has x86-64-v4.
pub const IS_BUILT_FOR_V4: bool =
    IS_BUILT_FOR_V3 && target_has!("avx512f", "avx512bw", "avx512cd", "avx512dq", "avx512vl");

static KNOWN: AtomicU8 = AtomicU8::new(UNKNOWN);
const UNKNOWN: u8 = 0;
const BASE: u8 = 1;
const V3: u8 = 2;
const V4: u8 = 3;

/// Returns the processor's level.
#[inline(always)]
pub fn level() -> Level {
    match KNOWN.load(Relaxed) {
        V4 => Level::V4,
        V3 => Level::V3,
        BASE => Level::Base,
        _ => ask(),
    }
}

/// True if the processor has x86-64-v3.
#[inline(always)]
pub fn has_v3() -> bool {
    level() >= Level::V3
}

#[cold]
#[inline(never)]
fn ask() -> Level {
    let level = asked();
    let known = match level {
        Level::Base => BASE,
        Level::V3 => V3,
        Level::V4 => V4,
    };
    KNOWN.store(known, Relaxed);
    level
}

// Bits of `cpuid` and of the register of the state that the system saves, from Intel's and AMD's manuals.
const FMA_MOVBE_OSXSAVE_AVX_F16C: u32 = 1 << 12 | 1 << 22 | 1 << 27 | 1 << 28 | 1 << 29;
const BMI1_AVX2_BMI2: u32 = 1 << 3 | 1 << 5 | 1 << 8;
const LZCNT: u32 = 1 << 5;
const AVX512_F_DQ_CD_BW_VL: u32 = 1 << 16 | 1 << 17 | 1 << 28 | 1 << 30 | 1 << 31;
const SAVES_YMM: u64 = 0b110;
const SAVES_ZMM: u64 = 0b1110_0110;

#[allow(unused_unsafe, reason = "`cpuid` is safe in newer compilers")]
fn asked() -> Level {
    // SAFETY: every x86-64 has `cpuid`, and only existing leaves are read.
    let (leaves, further) = unsafe { (__cpuid(0).eax, __cpuid(0x8000_0000).eax) };
    if leaves < 7 || further < 0x8000_0001 {
        return Level::Base;
    }
    // SAFETY: as above.
    let (first, seventh, extended) = unsafe {
        (
            __cpuid(1).ecx,
            __cpuid_count(7, 0).ebx,
            __cpuid(0x8000_0001).ecx,
        )
    };
    let has_v3 = first & FMA_MOVBE_OSXSAVE_AVX_F16C == FMA_MOVBE_OSXSAVE_AVX_F16C
        && seventh & BMI1_AVX2_BMI2 == BMI1_AVX2_BMI2
        && extended & LZCNT == LZCNT;
    if !has_v3 {
        return Level::Base;
    }
    // SAFETY: the bit OSXSAVE means that the instruction exists.
    let saved = unsafe { saved_registers() };
    if saved & SAVES_YMM != SAVES_YMM {
        Level::Base
    } else if saved & SAVES_ZMM == SAVES_ZMM
        && seventh & AVX512_F_DQ_CD_BW_VL == AVX512_F_DQ_CD_BW_VL
    {
        Level::V4
    } else {
        Level::V3
    }
}

#[target_feature(enable = "xsave")]
unsafe fn saved_registers() -> u64 {
    // SAFETY: register 0 exists wherever the instruction does.
    unsafe { _xgetbv(0) }
}

#[cfg(all(test, feature = "std"))]
mod tests {
    use super::*;

    macro_rules! processor_has {
        ($($feature:tt),*) => { $(std::is_x86_feature_detected!($feature))&&* };
    }

    #[test]
    fn the_level_is_what_the_standard_library_finds() {
        let has_v3 = processor_has!("avx2", "bmi1", "bmi2", "f16c", "fma", "lzcnt", "movbe");
        let has_v4 =
            has_v3 && processor_has!("avx512f", "avx512bw", "avx512cd", "avx512dq", "avx512vl");
        assert_eq!(level() >= Level::V3, has_v3);
        assert_eq!(level() == Level::V4, has_v4);
    }
}
