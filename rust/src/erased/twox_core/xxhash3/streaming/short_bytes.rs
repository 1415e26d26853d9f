// SPDX-License-Identifier: MIT
// crates/twox_core/src/xxhash3/streaming/short_bytes.rt without its contracts, written by rust/erase: change that file.

//! The bytes of a short stream.
//!
//! A processor waits if it loads bytes that several stores wrote a moment ago. A short key is two writes, such as the
//! bytes of a string and the 0xff that ends them, and its value is computed at once. So the first eight bytes are
//! written by one store of a word, and the load waits for nothing.

use crate::erased::twox_words::copies::copy_up_to_128;
use crate::erased::twox_words::words::{IntoU64, u32_at, u64_at};

/// Maximum number of bytes that a stream has without a longer state.
pub(super) const SHORT_BYTES: usize = 128;

/// Writes a slice after the first `used` bytes.
#[inline(always)]
pub(super) fn append(short: &mut [u8; SHORT_BYTES], used: usize, bytes: &[u8]) {
    let n = bytes.len();
    if n <= 8 && n >= 4 && used == 0 {
        put_first(short, bytes);
    } else {
        copy_up_to_128(&mut short[used..used + n], bytes);
    }
}

/// Writes an array after the first `used` bytes. The length is known, so this is a few moves.
#[inline(always)]
pub(super) fn append_array<const N: usize>(
    short: &mut [u8; SHORT_BYTES],
    used: usize,
    bytes: &[u8; N],
) {
    if N == 1 && used >= 4 && used < 8 {
        put_byte_after(short, used, bytes[0]);
    } else {
        short[used..used + N].copy_from_slice(&bytes[..]);
    }
}

// Replaces the first bytes by 4 to 8 others, and those above them up to the eighth by zeros.
#[inline(always)]
fn put_first(short: &mut [u8; SHORT_BYTES], bytes: &[u8]) {
    short[..8].copy_from_slice(&word_of(bytes).to_le_bytes());
}

// Replaces byte `n` of the first eight, and those above it up to the eighth by zeros.
#[inline(always)]
fn put_byte_after(short: &mut [u8; SHORT_BYTES], n: usize, byte: u8) {
    let word = with_byte(&short[..], n, byte);
    short[..8].copy_from_slice(&word.to_le_bytes());
}

// Returns the word with 4 to 8 bytes from the low one up, and zeros above them.
#[inline(always)]
fn word_of(bytes: &[u8]) -> u64 {
    let n = bytes.len();
    let low = u32_at(bytes, 0).into_u64();
    let high = u32_at(bytes, n - 4).into_u64();
    low + (high >> (8 * (8 - n)) << 32)
}

// Returns the word with the first `n` bytes of a slice, a byte above them, and then zeros.
#[inline(always)]
fn with_byte(bytes: &[u8], n: usize, byte: u8) -> u64 {
    let place = 8 * n;
    u64_at(bytes, 0) % (1 << place) + (byte.into_u64() << place)
}
