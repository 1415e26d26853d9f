// SPDX-License-Identifier: MIT
// crates/xxh_io/src/buffered.rt without its contracts, written by rust/erase --programs: change that file.

//! A fixed buffer in front of a reader.

use crate::rattle::io;
use crate::rattle::io::Read;

/// A reader with a buffer of `N` bytes, so that many short reads become few long ones of the reader. Allocates nothing.
///
/// A read returns bytes of the buffer. Only if the buffer is empty does it read from the reader, once, and directly
/// into the caller's buffer if that is as long. An error of the reader therefore comes after all the bytes before it,
/// and loses none.
pub struct Buffered<R, const N: usize> {
    inner: R,
    buf: [u8; N],
    // `buf[start..end]` is unread.
    start: usize,
    end: usize,
}

impl<R: Read, const N: usize> Buffered<R, N> {
    /// Creates an empty buffer in front of the reader.
    pub fn new(inner: R) -> Buffered<R, N> {
        Buffered {
            inner,
            buf: [0; N],
            start: 0,
            end: 0,
        }
    }

    // Reads once into the whole buffer, unless it has unread bytes.
    fn fill(&mut self) -> io::Result<()> {
        if self.start < self.end {
            return Ok(());
        }
        let count = self.inner.read(&mut self.buf)?;
        self.start = 0;
        self.end = count;
        Ok(())
    }
}

impl<R: Read, const N: usize> Read for Buffered<R, N> {
    fn read(&mut self, buf: &mut [u8]) -> io::Result<usize> {
        // A long read needs no copy.
        if self.start >= self.end && buf.len() >= N {
            return self.inner.read(buf);
        }
        self.fill()?;
        let filled = &self.buf[..];
        let waiting = &filled[self.start..self.end];
        let count = waiting.len().min(buf.len());
        buf[..count].copy_from_slice(&waiting[..count]);
        self.start += count;
        Ok(count)
    }
}
