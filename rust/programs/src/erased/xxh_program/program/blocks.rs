// SPDX-License-Identifier: MIT
// crates/xxh_program/src/program/blocks.rt without its contracts, written by rust/erase --programs: change that file.

//! Digest lines of blocks: reads a source to its end, and writes a line for each block of the input.

use crate::programs::xxh_program::program::engine::OFFERED;
use crate::programs::twox_hash::xxhash3::{DefaultSecret, SecretBuffer};
use crate::programs::twox_hash::xxhash3_128::RawHasher;
use crate::programs::xxh_io::digest_error::DigestError;
use crate::programs::xxh_io::hex::{LINE, offset_line};
use crate::programs::xxh_io::streams::{Failed, Sink, Source};
use crate::programs::xxh_io::waiting::Waiting;
use crate::programs::xxh_io::write::write_all;

// Returns the stream of no bytes.
fn empty_stream() -> RawHasher<DefaultSecret> {
    RawHasher::new(SecretBuffer::default())
}

// The block that is being read.
struct CurrentBlock {
    hasher: RawHasher<DefaultSecret>,
    // Number of bytes of a block.
    size: u64,
    // Number of bytes of this block that the hasher has hashed.
    count: u64,
    // Offset of this block, saturating at `u64::MAX`.
    offset: u64,
}

impl CurrentBlock {
    // Starts before the first byte.
    fn new(size: u64) -> CurrentBlock {
        CurrentBlock {
            hasher: empty_stream(),
            size,
            count: 0,
            offset: 0,
        }
    }

    // Hashes bytes that end before the block does.
    fn extend(&mut self, front: &[u8]) {
        self.hasher.write(front);
        self.count += front.len() as u64;
    }

    // Hashes the bytes that end the block, returns its line, and begins the next block.
    fn complete(&mut self, front: &[u8]) -> [u8; LINE] {
        self.hasher.write(front);
        let line = offset_line(self.offset, self.hasher.finish_128());
        self.hasher = empty_stream();
        self.count = 0;
        self.offset = self.offset.saturating_add(self.size);
        line
    }

    // Hashes a chunk, and writes the line of each block that it ends. The lines are collected in a buffer of `N` bytes,
    // which is empty afterwards.
    fn take<W: Sink, const N: usize>(&mut self, piece: &[u8], w: &mut W) -> Result<(), DigestError> {
        let mut lines = Waiting::<N>::new();
        let mut rest = piece;
        loop {
            let room = self.size - self.count;
            if (rest.len() as u64) < room {
                self.extend(rest);
                return lines.flush(w);
            }
            let (front, after) = rest.split_at(room as usize);
            let line = self.complete(front);
            lines.push(&line, w)?;
            rest = after;
        }
    }

    // Writes the line of the last block, if it is short.
    fn finish<W: Sink>(&self, w: &mut W) -> Result<(), DigestError> {
        if self.count == 0 {
            return Ok(());
        }
        let line = offset_line(self.offset, self.hasher.finish_128());
        write_all(&line, w)
    }
}

// Implements `digest_blocks` with a read buffer of `READ` bytes and a buffer of `LINES` bytes for the lines of the
// blocks that a chunk ends. That buffer is written before the next read.
pub(crate) fn digest_blocks_by<R: Source, W: Sink, const READ: usize, const LINES: usize>(
    r: &mut R,
    w: &mut W,
    block: u64,
    max_reads: u64,
) -> Result<(), DigestError> {
    let mut current = CurrentBlock::new(block);
    let mut buf = [0; READ];
    for turn in 0..max_reads {
        match r.read(&mut buf) {
            Ok(0) => return current.finish(w),
            Ok(count) => current.take::<W, LINES>(&buf[..count], w)?,
            Err(Failed) => return Err(DigestError::ReadFailed),
        }
    }
    Err(DigestError::TooLong)
}

/// Reads to the end of the source and writes a line for each block of `block` bytes. The last block may be shorter. A
/// line has the block's offset, saturating at 2^64 - 1, in 16 lower-case hexadecimal digits, a space, XXH3 128-bit of
/// the block under the seed 0 and the default secret, in 32 digits, and a newline. Each read is offered 4,096 bytes
/// (tested, not in a clause). A line is written before the next read. Nothing is allocated. An empty input has no
/// lines.
///
/// The caller proves that neither stream has failed and that a block has at least one byte.
///
/// Its proof uses only public contracts of the library: the contracts of `SecretBuffer::default` and `RawHasher::new`,
/// and the clauses `message` of `write` and `finish_128`.
///
/// # Errors
///
/// - [`DigestError::ReadFailed`] if and only if the source has failed afterwards. The lines of the whole blocks were
///   written.
/// - [`DigestError::WriteFailed`] if and only if the sink has failed afterwards. A proper prefix of the lines was
///   written, and no further read was made.
/// - [`DigestError::TooLong`] if and only if `max_reads` reads each returned at least one byte and the sink has not
///   failed. The lines of the whole blocks were written, and no further read was made.
///
/// ```rattle
/// let mut input = FromRead::new([0, 1, 0].as_slice());
/// let mut output = FromWrite::new(Vec::new(alloc));
/// digest_blocks(&mut input, &mut output, 2, u64::MAX)?;
/// // 0000000000000000 6a4a5274c1b0d3add6645fc3051a9457
/// // 0000000000000002 a6cd5e9392000f6ac44bdff4074eecdb
/// ```
pub fn digest_blocks<R: Source, W: Sink>(
    r: &mut R,
    w: &mut W,
    block: u64,
    max_reads: u64,
) -> Result<(), DigestError> {
    digest_blocks_by::<R, W, OFFERED, LINE>(r, w, block, max_reads)
}

/// Lemma (no code): a block of `n` bytes has a line if and only if it begins before their end. It is whole if and only
/// if it ends by then.
pub fn block_counts() {}
