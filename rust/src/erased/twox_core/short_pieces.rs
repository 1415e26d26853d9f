// SPDX-License-Identifier: MIT
// crates/twox_core/src/short_pieces.rt without its contracts, written by rust/erase: change that file.

//! Chunks of a few bytes, for exports. Exists only for speed; `twox_hash` doesn't re-export it.

use crate::erased::twox_core::xxhash3::CoreState;

/// Buffers a chunk of a few bytes for which the buffer has space, without a call and for any secret.
#[inline(always)]
pub fn keep_few(core: &mut CoreState, input: &[u8]) {
    core.keep_few(input);
}
