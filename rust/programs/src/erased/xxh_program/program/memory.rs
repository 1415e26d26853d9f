// SPDX-License-Identifier: MIT
// crates/xxh_program/src/program/memory.rt without its contracts, written by rust/erase --programs: change that file.

//! The digest line of bytes in memory, with no relation of a stream in its contract.

use crate::programs::xxh_program::program::engine::digest;
use crate::programs::xxh_io::digest_error::DigestError;
use crate::programs::xxh_io::kind::Kind;
use crate::programs::xxh_io::script_sink::ScriptSink;
use crate::programs::xxh_io::script_source::SliceSource;
use crate::programs::xxh_io::streams::Sink;

/// Writes the digest line of the bytes into the sink, as [`digest`] does from a source that returns them all and never
/// fails. The caller proves that the sink has not failed, that no write of its script fails, and that it has space for
/// the line. So the result is `Ok`, and the sink then holds what it held and the line.
///
/// It is `digest` over memory, and shows what its clauses mean if both streams expose their bytes. No contract can
/// state what is in a file that standard input reads.
///
/// ```rattle
/// let mut sink = ScriptSink::<17>::new(17, 0);
/// digest_of_bytes(Kind::X64, 1234, b"some bytes", &mut sink)?;
/// sink.bytes() // eab55659a496d78b and a newline
/// ```
pub fn digest_of_bytes<const N: usize>(
    kind: Kind,
    seed: u64,
    bytes: &[u8],
    w: &mut ScriptSink<N>,
) -> Result<(), DigestError> {
    let max_reads = bytes.len() as u64 + 1;
    digest(kind, seed, max_reads, &mut SliceSource::new(bytes), w)
}
