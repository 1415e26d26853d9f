// SPDX-License-Identifier: MIT
//! The kernels by the erased source. On x86-64 with SSE2 that of XXH3 is compiled a second time for AVX2, over the same files,
//! and the processor decides; not in SGX, where `cpuid` is forbidden.

use crate::erased::twox_core::width_128::{halves, Finalize128, Wide};
use crate::erased::twox_core::width_64::Finalize64;
use crate::erased::twox_core::xxhash3::{Algorithm, CoreState, Secret, Vector};
use crate::erased::twox_plain::xxhash32::Core;
use crate::kernels::Kernel;

/// Minimum number of bytes that XXH32 takes by blocks: none, since their products are slow without an instruction for them.
pub const BYTES_FOR_BLOCKS: usize = usize::MAX;

/// Is not called.
pub fn write_blocks_32<'d>(_: &mut Core, input: &'d [u8]) -> &'d [u8] {
    input
}

/// Defines each call by the kernel of the target and, on x86-64, by the one over AVX2.
macro_rules! calls {
    ($(fn $name:ident($($argument:ident: $kind:ty),*) $(-> $value:ty)? = $by:ident;)*) => {
        mod base {
            use super::*;
            $(#[inline(never)]
            pub fn $name($($argument: $kind),*) $(-> $value)? {
                $by(Kernel {}, $($argument),*)
            })*
        }

        #[cfg(all(
            target_arch = "x86_64",
            target_feature = "sse2",
            not(any(miri, target_env = "sgx", target_feature = "avx2"))
        ))]
        mod wide {
            use super::*;
            $(#[inline(never)]
            #[target_feature(enable = "avx2,bmi1,bmi2,f16c,fma,lzcnt,movbe")]
            pub unsafe fn $name($($argument: $kind),*) $(-> $value)? {
                $by(avx2::lanes4::Impl {}, $($argument),*)
            })*
        }

        $(#[inline(always)]
        pub fn $name($($argument: $kind),*) $(-> $value)? {
            #[cfg(all(
                target_arch = "x86_64",
                target_feature = "sse2",
                not(any(miri, target_env = "sgx", target_feature = "avx2"))
            ))]
            if crate::processor::has_v3() {
                // SAFETY: the processor has these features.
                return unsafe { wide::$name($($argument),*) };
            }
            base::$name($($argument),*)
        })*
    };
}

calls! {
    fn long_64(secret: Secret<'_>, input: &[u8]) -> u64 = long_64_by;
    fn long_128(secret: Secret<'_>, input: &[u8]) -> Wide = long_128_by;
    fn write(core: &mut CoreState, input: &[u8], secret: Secret<'_>) = write_by;
}

#[inline(always)]
fn long_64_by<V: Vector>(v: V, secret: Secret<'_>, input: &[u8]) -> u64 {
    Algorithm(v).oneshot(secret, input, Finalize64)
}

#[inline(always)]
fn long_128_by<V: Vector>(v: V, secret: Secret<'_>, input: &[u8]) -> Wide {
    halves(Algorithm(v).oneshot(secret, input, Finalize128))
}

#[inline(always)]
fn write_by<V: Vector>(v: V, core: &mut CoreState, input: &[u8], secret: Secret<'_>) {
    core.write(v, input, secret);
}

#[cfg(all(
    target_arch = "x86_64",
    target_feature = "sse2",
    not(any(miri, target_env = "sgx", target_feature = "avx2"))
))]
#[rustfmt::skip]
mod avx2;
