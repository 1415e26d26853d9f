// SPDX-License-Identifier: MIT
// crates/twox_words/src/copies.rt without its contracts, written by rust/erase: change that file.

//! Copies of short slices of bytes.

/// Copies a slice of at most 32 bytes over another of the same length.
///
/// Does what `copy_from_slice` does, without its call, which takes longer than these few moves.
#[inline(always)]
pub fn copy_short(to: &mut [u8], from: &[u8]) {
    let n = from.len();
    if n > 16 {
        copy_ends::<16>(to, from);
    } else if n >= 8 {
        copy_ends::<8>(to, from);
    } else if n >= 4 {
        copy_ends::<4>(to, from);
    } else if n >= 2 {
        copy_ends::<2>(to, from);
    } else if n == 1 {
        to[0] = from[0];
    }
}

/// Copies a slice of at most 128 bytes over another of the same length, without a call.
#[inline(always)]
pub fn copy_up_to_128(to: &mut [u8], from: &[u8]) {
    let n = from.len();
    if n > 64 {
        copy_ends::<64>(to, from);
    } else if n > 32 {
        copy_ends::<32>(to, from);
    } else {
        copy_short(to, from);
    }
}

/// Copies a slice of at most 32 bytes over the front of another. An empty slice costs one test.
#[inline(always)]
pub fn copy_front(to: &mut [u8], from: &[u8]) {
    if !from.is_empty() {
        copy_short(&mut to[..from.len()], from);
    }
}

// Copies a slice of `N` to `2 * N` bytes over another of the same length: the first `N` bytes, then the last `N`, which
// may overlap them. The start of the last `N` is a named value, so that the compiler sees that each copy's address lies
// within its slice.
#[inline(always)]
fn copy_ends<const N: usize>(to: &mut [u8], from: &[u8]) {
    crate::rattle::copy_ends::<N>(to, from)
}

// Copies the first `N` bytes.
#[inline(always)]
fn copy_chunk<const N: usize>(to: &mut [u8], from: &[u8]) {
    *to.first_chunk_mut::<N>().unwrap() = *from.first_chunk().unwrap();
}
