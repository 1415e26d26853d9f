// SPDX-License-Identifier: MIT
// crates/twox_core/src/xxhash3/streaming/lazy_key.rt without its contracts, written by rust/erase: change that file.

//! A key that derives its secret whenever it has an effect.

use crate::rattle::prelude::Clone;
use super::key::{ClonedKey, Key};
use super::stream_state::StreamState;
use super::{BUFFERED_BYTES, SecretBuffer};
use crate::erased::twox_core::xxhash3::{DEFAULT_SECRET_LENGTH, Finalize, Kernel, derived_secret};
use crate::rattle::{AllocError, Allocator};
use crate::buffers::BoxedSlice;

/// A seed, whose secret is derived on the stack of each call that uses it, or a stored secret.
///
/// No call takes memory, except `into_secret` for a seed, which takes it from the allocator that came with the seed.
pub enum LazyKey<A: Allocator> {
    /// A seed.
    Derived(u64, A),
    /// A secret of the caller, with its seed, if it has one.
    Given(SecretBuffer<BoxedSlice<u8, A>>),
}

impl<A: Allocator> LazyKey<A> {
    /// Returns the secret.
    ///
    /// # Errors
    ///
    /// `AllocError` if the secret is that of a seed, and out of memory.
    pub fn into_secret(self) -> Result<BoxedSlice<u8, A>, AllocError> {
        match self {
            LazyKey::Derived(seed, alloc) => BoxedSlice::from_slice(alloc, &derived_secret(seed)),
            LazyKey::Given(buffer) => Ok(buffer.into_secret()),
        }
    }
}

impl<A: Allocator> Key for LazyKey<A> {
    type Held = [u8; DEFAULT_SECRET_LENGTH];

    #[inline(always)]
    fn write(&self, state: &mut StreamState, input: &[u8]) {
        match self {
            LazyKey::Derived(seed, _) => state.write_derived(input, *seed),
            LazyKey::Given(buffer) => buffer.write(state, input),
        }
    }

    #[inline(always)]
    fn finish<F: Finalize>(&self, state: &StreamState, finalize: &F) -> F::Output {
        match self {
            LazyKey::Derived(seed, _) => state.finish_derived(Kernel {}, finalize, *seed),
            LazyKey::Given(buffer) => finish_given(buffer, state, finalize),
        }
    }
}

// Returns the value for a stored secret. A separate function, so that other streams save no registers for its calls.
#[inline(never)]
fn finish_given<A: Allocator, F: Finalize>(
    buffer: &SecretBuffer<BoxedSlice<u8, A>>,
    state: &StreamState,
    finalize: &F,
) -> F::Output {
    buffer.finish(state, finalize)
}

impl<A: Allocator + Clone> Clone for LazyKey<A> {
    fn clone(&self) -> Result<LazyKey<A>, AllocError> {
        match self {
            LazyKey::Derived(seed, alloc) => Ok(LazyKey::Derived(*seed, alloc.clone()?)),
            LazyKey::Given(buffer) => Ok(LazyKey::Given(buffer.clone()?)),
        }
    }
}

impl<A: Allocator + Clone> ClonedKey for LazyKey<A> {}
