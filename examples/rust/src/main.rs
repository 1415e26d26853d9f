//! Hashes a file with XXH32, XXH64, XXH3 64-bit and XXH3 128-bit, and prints a line for each:
//!
//! ```text
//! hash-file FILE
//! ```

use std::env;
use std::fs::File;
use std::hash::Hasher as _;
use std::io::{self, Write};
use twox_hash::{XxHash32, XxHash3_128, XxHash3_64, XxHash64};

/// A stream of each hash, with the seed 0.
#[derive(Default)]
struct Hashers {
    xxh32: XxHash32,
    xxh64: XxHash64,
    xxh3_64: XxHash3_64,
    xxh3_128: XxHash3_128,
}

impl Hashers {
    fn print(&self, mut out: impl Write) -> io::Result<()> {
        writeln!(out, "32 {:08x}", self.xxh32.finish_32())?;
        writeln!(out, "64 {:016x}", self.xxh64.finish())?;
        writeln!(out, "3-64 {:016x}", self.xxh3_64.finish())?;
        writeln!(out, "3-128 {:032x}", self.xxh3_128.finish_128())?;
        out.flush()
    }
}

/// Hashes each written chunk with each stream.
impl Write for Hashers {
    fn write(&mut self, piece: &[u8]) -> io::Result<usize> {
        self.xxh32.write(piece);
        self.xxh64.write(piece);
        self.xxh3_64.write(piece);
        self.xxh3_128.write(piece);
        Ok(piece.len())
    }

    fn flush(&mut self) -> io::Result<()> {
        Ok(())
    }
}

fn main() -> io::Result<()> {
    let mut paths = env::args_os().skip(1);
    let (Some(path), None) = (paths.next(), paths.next()) else {
        return Err(io::Error::other("usage: hash-file FILE"));
    };
    let mut file = File::open(path)?;
    let mut hashers = Hashers::default();
    io::copy(&mut file, &mut hashers)?;
    hashers.print(io::stdout().lock())
}
