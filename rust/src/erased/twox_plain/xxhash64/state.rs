// SPDX-License-Identifier: MIT
// crates/twox_plain/src/xxhash64/state.rt without its contracts, written by rust/erase: change that file.

//! A stream of XXH64: its accumulators, the buffered bytes of the next stripe, and the length.

use super::rounds::{BYTES_IN_STRIPE, finish_with};
use super::{Core, MARK, SavedState, StateInMemory};
use crate::erased::twox_plain::words::IntoU64;
use crate::erased::twox_words::copies::{copy_front, copy_short};

impl StateInMemory {
    /// Puts the record's fields in their places.
    ///
    /// The caller proves that less than a stripe is buffered.
    #[inline(always)]
    pub const fn of_record(state: SavedState) -> StateInMemory {
        let buffer = state.buffer;
        StateInMemory {
            v1: state.core.v1,
            seed: state.seed,
            v2: state.core.v2,
            total_len: state.total_len,
            v3: state.core.v3,
            marked_usage: MARK + state.buffer_usage as u32,
            v4: state.core.v4,
            buffer,
        }
    }

    /// Returns the record in this memory.
    #[inline(always)]
    pub fn record(&self) -> SavedState {
        let buffer = self.buffer;
        SavedState {
            total_len: self.total_len,
            seed: self.seed,
            core: self.core(),
            buffer,
            buffer_usage: self.usage(),
        }
    }

    /// Returns the number of bytes buffered: a stripe or more if the memory has no mark.
    #[inline(always)]
    pub fn usage(&self) -> usize {
        self.marked_usage.wrapping_sub(MARK) as usize
    }

    // Sets the number of bytes buffered, and the mark with it.
    #[inline(always)]
    fn set_usage(&mut self, usage: usize) {
        self.marked_usage = MARK + usage as u32;
    }

    // Returns the accumulators.
    #[inline(always)]
    pub(super) fn core(&self) -> Core {
        Core {
            v1: self.v1,
            v2: self.v2,
            v3: self.v3,
            v4: self.v4,
        }
    }

    // Stores the accumulators.
    #[inline(always)]
    fn set_core(&mut self, core: Core) {
        self.v1 = core.v1;
        self.v2 = core.v2;
        self.v3 = core.v3;
        self.v4 = core.v4;
    }

    /// Hashes the bytes of an array. One that fills no stripe is a few moves, since its length is known.
    ///
    /// The caller proves that less than a stripe is buffered.
    #[inline(always)]
    pub fn add_array<const N: usize>(&mut self, bytes: &[u8; N]) {
        let filled = self.usage();
        if N < BYTES_IN_STRIPE - filled {
            self.total_len = self.total_len.saturating_add(N.into_u64());
            self.set_usage(filled + N);
            self.buffer[filled..filled + N].copy_from_slice(&bytes[..]);
        } else {
            self.add_far(&bytes[..]);
        }
    }

    // Separate function, so that a map's key of a word pays for nothing in it.
    #[inline(never)]
    fn add_far(&mut self, input: &[u8]) {
        self.add_piece(input);
    }

    /// Hashes a chunk.
    ///
    /// The caller proves that less than a stripe is buffered.
    #[inline(always)]
    pub fn add_piece(&mut self, input: &[u8]) {
        let used = self.usage();
        self.total_len = self.total_len.saturating_add(input.len().into_u64());
        let mut rest = input;
        if used > 0 {
            if used + input.len() < BYTES_IN_STRIPE {
                self.set_usage(used + input.len());
                copy_short(&mut self.buffer[used..used + input.len()], input);
                return;
            }
            let (head, after) = input.split_at(BYTES_IN_STRIPE - used);
            copy_short(&mut self.buffer[used..], head);
            let mut core = self.core();
            core.write(&self.buffer);
            self.set_core(core);
            rest = after;
        }
        self.add_stripes(rest);
    }

    // Hashes bytes that are already counted, if none are buffered: adds the whole stripes, and buffers the bytes after
    // them.
    #[inline(always)]
    fn add_stripes(&mut self, input: &[u8]) {
        let mut rest = input;
        if input.len() >= BYTES_IN_STRIPE {
            let mut core = self.core();
            rest = core.write_of_stream(input);
            self.set_core(core);
        }
        copy_front(&mut self.buffer, rest);
        self.set_usage(rest.len());
    }

    /// Does what `finish` does. The hash of a word or two, such as a map's key, is computed inline, and the others are
    /// computed by a separate function. A fourth length would make these tests a jump by a table.
    #[inline(always)]
    pub fn finish_key(&self) -> u64 {
        let few = self.usage();
        if self.total_len == few.into_u64() {
            if few == 4 {
                return self.finish_few::<4>();
            }
            if few == 8 {
                return self.finish_few::<8>();
            }
            if few == 16 {
                return self.finish_few::<16>();
            }
        }
        self.finish_any()
    }

    #[inline(never)]
    fn finish_any(&self) -> u64 {
        self.finish()
    }

    // Returns the hash of `N` bytes.
    #[inline(always)]
    fn finish_few<const N: usize>(&self) -> u64 {
        finish_with(self.seed, N.into_u64(), &self.core(), &self.buffer[..N])
    }

    /// Returns the hash of the bytes so far.
    ///
    /// The caller proves that less than a stripe is buffered.
    #[inline(always)]
    pub fn finish(&self) -> u64 {
        finish_with(
            self.seed,
            self.total_len,
            &self.core(),
            &self.buffer[..self.usage()],
        )
    }
}
