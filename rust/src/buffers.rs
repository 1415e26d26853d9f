// SPDX-License-Identifier: MIT
//! Buffers of secrets: a caller's, and the allocated one of a `Hasher`.
//!
//! The proofs of the source rest on what each trait promises.

#[cfg(feature = "alloc")]
use alloc::boxed::Box;
use core::marker::PhantomData;

use crate::erased::twox_core::xxhash3::Secret;
use crate::rattle::AllocError;

/// Bytes that can be a stream's secret.
///
/// # Safety
///
/// `as_ref` returns equally many bytes at each call, also on each clone. Otherwise a stream panics or returns a value of
/// other secrets.
pub unsafe trait FixedBuffer: AsRef<[u8]> {}

/// Bytes that the secret derived from a seed can be written to.
///
/// # Safety
///
/// `as_mut` returns the bytes that `as_ref` returns, and equally many at each call.
pub unsafe trait FixedMutBuffer: FixedBuffer + AsMut<[u8]> {}

// SAFETY: the length of an array is fixed by its type.
unsafe impl<const N: usize> FixedBuffer for [u8; N] {}
// SAFETY: as above, and both calls return the array.
unsafe impl<const N: usize> FixedMutBuffer for [u8; N] {}
// SAFETY: the length of an array is fixed by its type.
unsafe impl<const N: usize> FixedBuffer for &[u8; N] {}
// SAFETY: the length of an array is fixed by its type.
unsafe impl<const N: usize> FixedBuffer for &mut [u8; N] {}
// SAFETY: as above, and both calls return the array.
unsafe impl<const N: usize> FixedMutBuffer for &mut [u8; N] {}
// SAFETY: nothing changes the length of a boxed slice.
#[cfg(feature = "alloc")]
unsafe impl FixedBuffer for Box<[u8]> {}
// SAFETY: as above, and both calls return the slice.
#[cfg(feature = "alloc")]
unsafe impl FixedMutBuffer for Box<[u8]> {}

/// Wraps the bytes of a buffer as a secret.
///
/// # Panics
///
/// Panics if an `unsafe impl` has broken its promise, so that a stream's secret is now shorter than 136 bytes.
#[inline(always)]
pub fn secret_of(bytes: &[u8]) -> Secret<'_> {
    Secret::new(bytes).expect("a stream was refused: its secret's length has changed")
}

/// "A buffer whose clones hold the same bytes."
pub trait ClonedBuffer: Sized {
    fn clone(&self) -> Result<Self, AllocError>;
}

impl<S: Clone> ClonedBuffer for S {
    #[inline(always)]
    fn clone(&self) -> Result<S, AllocError> {
        Ok(Clone::clone(self))
    }
}

/// An allocated slice: Rattle's `BoxedSlice`. Its allocator is always the global one.
pub struct BoxedSlice<T, A> {
    #[cfg(feature = "alloc")]
    items: Box<[T]>,
    allocator: PhantomData<(T, A)>,
}

#[cfg(feature = "alloc")]
impl<A> BoxedSlice<u8, A> {
    /// "`Ok` of a slice with these items, or `Err` if an allocation failed."
    #[inline(always)]
    pub fn from_slice(_: A, items: &[u8]) -> Result<Self, AllocError> {
        Ok(Self::of_box(items.into()))
    }

    /// Returns the slice in the box.
    #[inline(always)]
    pub fn of_box(items: Box<[u8]>) -> Self {
        BoxedSlice {
            items,
            allocator: PhantomData,
        }
    }

    /// Returns the box.
    #[cfg(any(feature = "xxhash3_64", feature = "xxhash3_128"))]
    pub fn into_box(self) -> Box<[u8]> {
        self.items
    }
}

// Without `alloc` no public call makes a boxed slice.
#[cfg(not(feature = "alloc"))]
impl<A> BoxedSlice<u8, A> {
    pub fn from_slice(_: A, _: &[u8]) -> Result<Self, AllocError> {
        Err(AllocError)
    }
}

impl<A> Clone for BoxedSlice<u8, A> {
    fn clone(&self) -> Self {
        BoxedSlice {
            #[cfg(feature = "alloc")]
            items: Clone::clone(&self.items),
            allocator: PhantomData,
        }
    }
}

impl<A> AsRef<[u8]> for BoxedSlice<u8, A> {
    #[inline(always)]
    fn as_ref(&self) -> &[u8] {
        #[cfg(feature = "alloc")]
        return &self.items;
        #[cfg(not(feature = "alloc"))]
        &[]
    }
}

// SAFETY: nothing changes the length of a boxed slice.
unsafe impl<A> FixedBuffer for BoxedSlice<u8, A> {}
