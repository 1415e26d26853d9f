// SPDX-License-Identifier: MIT
// crates/xxhsum_output/src/output.rt without its contracts, written by rust/erase --programs: change that file.

//! Sinks that may write later.

use crate::programs::xxh_io::script_sink::ScriptSink;
use crate::programs::xxh_io::streams::Sink;

/// A sink that may hold bytes for a while, to write many at once.
///
/// Bytes that it holds count as written to it. If their own write fails later, they are lost, and the next write to it
/// fails.
pub trait Output: Sink {
    /// True if bytes that it held were lost because their write failed.
    fn has_lost(&self) -> bool;

    /// Writes the bytes that it holds.
    fn release(&mut self);
}

// A sink in memory holds nothing.
impl<const N: usize> Output for ScriptSink<N> {
    fn has_lost(&self) -> bool {
        false
    }

    fn release(&mut self) {}
}
