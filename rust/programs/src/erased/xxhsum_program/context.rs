// SPDX-License-Identifier: MIT
// crates/xxhsum_program/src/context.rt without its contracts, written by rust/erase --programs: change that file.

//! The context of a run.

use crate::programs::xxhsum_program::progress_reader::ProgressDisplay;
use crate::rattle::Global;
use crate::programs::xxhsum_options::options::Options;

/// The context of a run: the allocator, the files, the options, and the display of progress.
#[derive(Clone, Copy)]
pub struct Context<'a, S, T> {
    /// The allocator.
    pub alloc: Global,
    /// The files.
    pub store: &'a S,
    /// The options.
    pub options: Options,
    /// The display of reading progress.
    pub progress: ProgressDisplay<T>,
}
