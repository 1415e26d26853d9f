// SPDX-License-Identifier: MIT
// crates/twox_core/src/xxhash3/streaming/stream_state.rt without its contracts, written by rust/erase: change that file.

//! The state of a stream that has only its bytes while they are few, such as those of a map's key.

use super::core_state::{BUFFERED_BYTES, CoreState};
use super::short_bytes::{SHORT_BYTES, append, append_array};
use crate::erased::twox_core::xxhash3::{
    CUTOFF, DEFAULT_SEED, Finalize, Secret, Vector, default_secret, derived_secret,
};
use crate::erased::twox_words::words::IntoU64;

/// The state of a stream: up to 128 bytes, or a longer state that begins with the first chunk for which they have no
/// room.
#[derive(Clone, Copy)]
pub struct StreamState {
    /// Number of bytes, if there is no longer state.
    pub(super) used: usize,
    pub(super) short: [u8; SHORT_BYTES],
    pub(super) long: Option<CoreState>,
}

impl StreamState {
    /// Returns the state of no bytes.
    #[inline(always)]
    pub(super) fn new() -> StreamState {
        StreamState {
            used: 0,
            short: [0; SHORT_BYTES],
            long: None,
        }
    }

    /// Hashes a chunk that needs no secret. Returns false, and changes nothing, for another one.
    #[inline(always)]
    pub(super) fn hold(&mut self, input: &[u8]) -> bool {
        match &mut self.long {
            Some(state) => {
                if !state.has_room(input.len()) {
                    return false;
                }
                state.hold(input);
                true
            }
            None => {
                let used = self.used;
                if input.len() > SHORT_BYTES - used {
                    return false;
                }
                self.used = used + input.len();
                append(&mut self.short, used, input);
                true
            }
        }
    }

    /// Hashes the bytes of an array if the stream stays short. Returns false, and changes nothing, if not. The length
    /// is known, so this is a few moves.
    #[inline(always)]
    pub(super) fn hold_array<const N: usize>(&mut self, bytes: &[u8; N]) -> bool {
        match &self.long {
            Some(_) => false,
            None => {
                let used = self.used;
                if N > SHORT_BYTES - used {
                    return false;
                }
                self.used = used + N;
                append_array(&mut self.short, used, bytes);
                true
            }
        }
    }

    /// Hashes a chunk.
    #[inline(always)]
    pub(super) fn write(&mut self, input: &[u8], secret: Secret<'_>) {
        match &mut self.long {
            Some(state) => state.take(input, secret),
            None => {
                let mut state = CoreState::new();
                state.hold(&self.short[..self.used]);
                state.take(input, secret);
                self.long = Some(state);
            }
        }
    }

    // Begins the longer state with the bytes.
    #[inline(always)]
    fn begin_long(&mut self) {
        match &self.long {
            Some(_) => {}
            None => {
                let mut state = CoreState::new();
                state.hold(&self.short[..self.used]);
                self.long = Some(state);
            }
        }
    }

    /// Hashes a chunk with the secret derived from a seed, which is on the stack. Derives it only if the chunk does not
    /// fit the buffer.
    #[inline(always)]
    pub(super) fn write_derived(&mut self, input: &[u8], seed: u64) {
        self.begin_long();
        if self.hold(input) {
            return;
        }
        if seed == DEFAULT_SEED {
            self.write(input, default_secret());
        } else {
            let secret = derived_secret(seed);
            self.write(input, Secret::new(&secret).unwrap());
        }
    }

    /// Returns the value of the bytes, by `finalize`, for a seed or, without one, for the secret.
    #[inline(always)]
    pub(super) fn finish<V: Vector, F: Finalize>(
        &self,
        v: V,
        finalize: &F,
        seed: Option<u64>,
        secret: Secret<'_>,
    ) -> F::Output {
        match &self.long {
            Some(state) => state.finish(v, finalize, seed, secret),
            None => match seed {
                Some(seed) => finalize.small(default_secret(), seed, &self.short[..self.used]),
                None => finalize.small(secret, DEFAULT_SEED, &self.short[..self.used]),
            },
        }
    }

    /// Returns the value for a seed and the secret derived from it. That of up to 16 bytes is computed inline.
    #[inline(always)]
    pub(super) fn finish_derived<V: Vector, F: Finalize>(
        &self,
        v: V,
        finalize: &F,
        seed: u64,
    ) -> F::Output {
        match &self.long {
            None => {
                if self.used <= 16 {
                    return finalize.small(default_secret(), seed, &self.short[..self.used]);
                }
            }
            Some(_) => {}
        }
        self.finish_derived_any(v, finalize, seed)
    }

    // Derives the secret only if it has an effect.
    #[inline(never)]
    fn finish_derived_any<V: Vector, F: Finalize>(&self, v: V, finalize: &F, seed: u64) -> F::Output {
        match &self.long {
            None => finalize.small(default_secret(), seed, &self.short[..self.used]),
            Some(state) => {
                if state.counts.total_bytes <= CUTOFF.into_u64() {
                    state.finish_short(finalize, Some(seed), default_secret())
                } else if seed == DEFAULT_SEED {
                    state.finish(v, finalize, Some(seed), default_secret())
                } else {
                    let secret = derived_secret(seed);
                    state.finish(v, finalize, Some(seed), Secret::new(&secret).unwrap())
                }
            }
        }
    }
}
