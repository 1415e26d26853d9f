// SPDX-License-Identifier: MIT
// crates/twox_plain/src/xxhash32/state.rt without its contracts, written by rust/erase: change that file.

//! A stream of XXH32: its accumulators, the buffered bytes of the next stripe, and the length.

use super::rounds::{BYTES_FOR_BLOCKS, BYTES_IN_STRIPE, IN_PAIRS, finish_with};
use super::{Core, MARK, SavedState, StateInMemory};
use crate::erased::twox_plain::words::{Halves, IntoU64};
use crate::erased::twox_words::copies::{copy_front, copy_short};

impl StateInMemory {
    /// Puts the record's fields in their places.
    ///
    /// The caller proves that less than a stripe is buffered.
    #[inline(always)]
    pub const fn of_record(state: SavedState) -> StateInMemory {
        let buffer = state.buffer;
        StateInMemory {
            v1: state.core.v1,
            seed: state.seed,
            v2: state.core.v2,
            marked_usage: MARK + state.buffer_usage as u32,
            v3: state.core.v3,
            total_low: (state.total_len % 0x1_0000_0000) as u32,
            total_high: (state.total_len >> 32) as u32,
            v4: state.core.v4,
            buffer,
        }
    }

    /// Returns the record in this memory.
    #[inline(always)]
    pub fn record(&self) -> SavedState {
        let buffer = self.buffer;
        SavedState {
            total_len: self.total_len(),
            seed: self.seed,
            core: self.core(),
            buffer,
            buffer_usage: self.usage(),
        }
    }

    /// Returns the number of bytes buffered: a stripe or more if the memory has no mark.
    #[inline(always)]
    pub fn usage(&self) -> usize {
        self.marked_usage.wrapping_sub(MARK) as usize
    }

    // Sets the number of bytes buffered, and the mark with it.
    #[inline(always)]
    fn set_usage(&mut self, usage: usize) {
        self.marked_usage = MARK + usage as u32;
    }

    /// Total bytes hashed, saturating at `u64::MAX`.
    #[inline(always)]
    pub const fn total_len(&self) -> u64 {
        ((self.total_high as u64) << 32) + self.total_low as u64
    }

    // Adds to the number of bytes hashed.
    #[inline(always)]
    fn count(&mut self, more: usize) {
        let total = self.total_len().saturating_add(more.into_u64());
        self.total_low = total.lower_half();
        self.total_high = total.upper_half();
    }

    // Returns the accumulators.
    #[inline(always)]
    pub(super) fn core(&self) -> Core {
        Core {
            v1: self.v1,
            v2: self.v2,
            v3: self.v3,
            v4: self.v4,
        }
    }

    // Stores the accumulators.
    #[inline(always)]
    fn set_core(&mut self, core: Core) {
        self.v1 = core.v1;
        self.v2 = core.v2;
        self.v3 = core.v3;
        self.v4 = core.v4;
    }

    /// Hashes the bytes of an array. One that fills no stripe is a few moves, since its length is known.
    ///
    /// The caller proves that less than a stripe is buffered.
    #[inline(always)]
    pub fn add_array<const N: usize>(&mut self, bytes: &[u8; N]) {
        let filled = self.usage();
        if N < BYTES_IN_STRIPE - filled {
            self.count(N);
            self.set_usage(filled + N);
            self.buffer[filled..filled + N].copy_from_slice(&bytes[..]);
        } else {
            self.add_far(&bytes[..]);
        }
    }

    // Separate function, so that a map's key of a word pays for nothing in it.
    #[inline(never)]
    fn add_far(&mut self, input: &[u8]) {
        self.add_piece(input);
    }

    /// Hashes a chunk.
    ///
    /// The caller proves that less than a stripe is buffered.
    #[inline(always)]
    pub fn add_piece(&mut self, input: &[u8]) {
        self.take_piece::<true>(input);
    }

    // Hashes a chunk. With `BLOCKS` a long one is taken by blocks.
    #[inline(always)]
    pub(super) fn take_piece<const BLOCKS: bool>(&mut self, input: &[u8]) {
        let used = self.usage();
        self.count(input.len());
        let mut rest = input;
        if used > 0 {
            if used + input.len() < BYTES_IN_STRIPE {
                self.set_usage(used + input.len());
                copy_short(&mut self.buffer[used..used + input.len()], input);
                return;
            }
            let (head, after) = input.split_at(BYTES_IN_STRIPE - used);
            copy_short(&mut self.buffer[used..], head);
            let mut core = self.core();
            core.write(&self.buffer);
            self.set_core(core);
            rest = after;
        }
        self.add_rest::<BLOCKS>(rest);
    }

    // Hashes bytes that are already counted, if none are buffered.
    #[inline(always)]
    fn add_rest<const BLOCKS: bool>(&mut self, input: &[u8]) {
        if BLOCKS && input.len() >= BYTES_FOR_BLOCKS {
            self.add_blocks(input);
        } else {
            self.add_stripes(input);
        }
    }

    // Adds the whole stripes, and buffers the bytes after them.
    #[inline(always)]
    fn add_stripes(&mut self, input: &[u8]) {
        let mut rest = input;
        if input.len() >= BYTES_IN_STRIPE {
            let mut core = self.core();
            rest = core.write_of_stream(input);
            self.set_core(core);
        }
        self.keep(rest);
    }

    // Does the same with blocks, in a separate function. That takes the accumulators, not the address of the state, if
    // they may be in registers.
    #[inline(always)]
    fn add_blocks(&mut self, input: &[u8]) {
        if IN_PAIRS {
            self.add_blocks_by_value(input);
        } else {
            self.add_blocks_in_place(input);
        }
    }

    // Passes the accumulators to a separate function. Proved by itself, since `IN_PAIRS` is true only in the crate for
    // cargo.
    #[inline(always)]
    fn add_blocks_by_value(&mut self, input: &[u8]) {
        let (core, rest) = self.core().after_blocks(input);
        self.set_core(core);
        self.keep(rest);
    }

    // Does the same in a separate function, so that shorter chunks save no registers for its calls.
    #[inline(never)]
    fn add_blocks_in_place(&mut self, input: &[u8]) {
        let mut core = self.core();
        let rest = core.write_many::<true>(input);
        self.set_core(core);
        self.keep(rest);
    }

    // Buffers the bytes that fill no stripe.
    #[inline(always)]
    fn keep(&mut self, rest: &[u8]) {
        copy_front(&mut self.buffer, rest);
        self.set_usage(rest.len());
    }

    /// Returns the hash of the bytes so far.
    ///
    /// The caller proves that less than a stripe is buffered.
    #[inline(always)]
    pub fn finish(&self) -> u32 {
        finish_with(
            self.seed,
            self.total_len(),
            &self.core(),
            &self.buffer[..self.usage()],
        )
    }
}
