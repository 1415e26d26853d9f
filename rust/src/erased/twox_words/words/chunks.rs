// SPDX-License-Identifier: MIT
// crates/twox_words/src/words/chunks.rt without its contracts, written by rust/erase: change that file.

//! Chunks of a slice, to be read or written in place.

use std::slice::from_raw_parts_mut;

/// Splits the slice into chunks of `N` items and a rest of fewer than `N` items. Copies nothing.
///
/// Chunk `i` is items `N * i` to `N * i + N - 1`. The caller proves that `N` is not 0.
#[inline(always)]
pub fn bp_as_chunks<T, const N: usize>(items: &[T]) -> (&[[T; N]], &[T]) {
    crate::rattle::as_chunks::<T, N>(items)
}

// Splits off the first `count` chunks of N items, which end at item `mid`.
fn chunks_and_rest_mut<T, const N: usize>(
    items: &mut [T],
    count: usize,
    mid: usize,
) -> (&mut [[T; N]], &mut [T]) {
    let n = items.len();
    let p = items.as_mut_ptr();
    unsafe {
        (
            from_raw_parts_mut(p as *mut [T; N], count),
            from_raw_parts_mut(p.add(mid), n - mid),
        )
    }
}

/// Splits the slice into mutable chunks of `N` items and a rest of fewer than `N` items. Copies nothing: what is
/// written through them is in the slice afterwards.
///
/// Chunk `i` is items `N * i` to `N * i + N - 1`. The caller proves that `N` is not 0.
#[inline(always)]
pub fn bp_as_chunks_mut<T, const N: usize>(items: &mut [T]) -> (&mut [[T; N]], &mut [T]) {
    let count = items.len() / N;
    chunks_and_rest_mut(items, count, count * N)
}
