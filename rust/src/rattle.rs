// SPDX-License-Identifier: MIT
//! Replaces the parts of Rattle's standard library that the erased source uses and Rust's library lacks.
//!
//! Nothing here is proved. The proofs of the source rest on the contracts of Rattle's library, which each item quotes.
#![allow(
    dead_code,
    reason = "a target or a set of features needs only some of it"
)]

pub mod simd;

/// Out of memory.
#[derive(Clone, Copy, Debug, PartialEq, Eq)]
pub struct AllocError;

/// Returns what was allocated. Out of memory, Rust's allocator ends the program, so nothing below returns the error.
#[inline(always)]
pub fn allocated<T>(result: Result<T, AllocError>) -> T {
    match result {
        Ok(value) => value,
        Err(AllocError) => unreachable!(),
    }
}

/// A source of memory. Here it is always the global allocator.
pub trait Allocator {}

/// The global allocator.
#[derive(Clone, Copy)]
pub struct Global;

impl Allocator for Global {}

/// The names of Rattle's prelude that Rust's lacks, or uses for something else.
pub mod prelude {
    pub(crate) use super::{prove, Clone};
}

/// A copy that may need memory: Rattle's `Clone`. "`Ok` of an equal value, or `Err` if an allocation failed."
pub trait Clone: Sized {
    fn clone(&self) -> Result<Self, AllocError>;
}

impl Clone for Global {
    fn clone(&self) -> Result<Self, AllocError> {
        Ok(Global)
    }
}

/// Tests a constant when it is compiled. The proved layouts are those of targets with 64 bits, so a size is tested there.
macro_rules! prove {
    (size_of $($rest:tt)*) => {
        assert!(cfg!(not(target_pointer_width = "64")) || size_of $($rest)*)
    };
    ($holds:expr) => {
        assert!($holds)
    };
}
pub(crate) use prove;

/// Returns the four-byte word at byte `i`, low byte first, by one test and one load.
///
/// # Panics
///
/// Panics if the slice ends before.
#[inline(always)]
pub fn u32_at(bytes: &[u8], i: usize) -> u32 {
    u32::from_le_bytes(*array_at(bytes, i))
}

/// Returns the eight-byte word at byte `i`, low byte first, by one test and one load.
///
/// # Panics
///
/// Panics if the slice ends before.
#[inline(always)]
pub fn u64_at(bytes: &[u8], i: usize) -> u64 {
    u64::from_le_bytes(*array_at(bytes, i))
}

/// Returns the second word of the 16 bytes at `i`. `kernels::expect_middle` has tested the length of the input.
#[inline(always)]
pub fn second_word(input: &[u8], _: &[u8], i: usize) -> u64 {
    u64_at(input, i + 8)
}

/// `slice::as_chunks`, which is stable from rustc 1.88 on: "the first `N * (len / N)` items as arrays, and the rest".
#[inline(always)]
pub fn as_chunks<T, const N: usize>(items: &[T]) -> (&[[T; N]], &[T]) {
    let count = items.len() / N;
    let (whole, rest) = items.split_at(count * N);
    // SAFETY: `whole` has `count` times `N` items, and an array has the layout of its items.
    (
        unsafe { core::slice::from_raw_parts(whole.as_ptr().cast(), count) },
        rest,
    )
}

/// Returns the `N` bytes from byte `i` on.
#[inline(always)]
pub fn array_at<const N: usize>(bytes: &[u8], i: usize) -> &[u8; N] {
    bytes[i..].first_chunk().unwrap_or_else(|| out_of_bounds())
}

/// Copies the first `N` bytes and the last `N` bytes. The place of the last ones is hidden from the optimizer: it would take
/// it for one that may lie before the slice, and load the other fields of a record again after each copy.
///
/// # Panics
///
/// Panics if the slices are not equally long, or shorter than `N` bytes.
#[inline(always)]
pub fn copy_ends<const N: usize>(to: &mut [u8], from: &[u8]) {
    if to.len() != from.len() || from.len() < N {
        out_of_bounds();
    }
    to[..N].copy_from_slice(&from[..N]);
    let last = barriers::hidden_usize(from.len() - N);
    // SAFETY: `last + N` is the length of both, and an array of bytes has no alignment.
    unsafe {
        *to.as_mut_ptr().add(last).cast::<[u8; N]>() = *from.as_ptr().add(last).cast::<[u8; N]>();
    }
}

#[cold]
#[inline(never)]
pub fn out_of_bounds() -> ! {
    panic!("the source reads bytes that aren't there")
}

/// Defines an identity whose result is hidden from the optimizer. It emits no instruction.
macro_rules! hidden {
    ($(#[$meta:meta])* $name:ident, $word:ty, $template:literal) => {
        /// Returns the word.
        $(#[$meta])*
        #[inline(always)]
        #[allow(unused_mut, reason = "not every target has the barrier")]
        pub fn $name(mut word: $word) -> $word {
            // SAFETY: the template is a comment.
            #[cfg(all(any(target_arch = "x86_64", target_arch = "aarch64"), not(miri)))]
            unsafe {
                core::arch::asm!($template, inout(reg) word, options(pure, nomem, nostack, preserves_flags));
            }
            word
        }
    };
}

/// Identities of `twox_words::barriers`.
pub mod barriers {
    hidden! { #[cfg(target_arch = "aarch64")] hidden_u32, u32, "/* {0:w} */" }
    hidden! { #[cfg(not(target_arch = "aarch64"))] hidden_u32, u32, "/* {0:e} */" }
    hidden! { hidden_u64, u64, "/* {0} */" }
    hidden! { hidden_usize, usize, "/* {0} */" }
}
