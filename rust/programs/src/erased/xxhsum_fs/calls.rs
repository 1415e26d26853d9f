// SPDX-License-Identifier: MIT
// crates/xxhsum_fs/src/calls.rt without its contracts, written by rust/erase --programs: change that file.

//! The calls of the system that a store of its files makes, as traits with one method for each. What a call returned is
//! a ghost relation, so the store is proved for any results: each errno, each name and each order of reads.

use crate::rattle::fs::{Files, Metadata};
use crate::rattle::io::Read;
use crate::rattle::fs;
use crate::rattle::io;

/// An open file or directory, or another input of the system.
pub trait ReadCall {
    /// Makes one call: reads bytes into the front of the buffer, and returns their number, or 0 at the end.
    ///
    /// The caller proves that the buffer is not empty.
    fn read_once(&mut self, buf: &mut [u8]) -> io::Result<usize>;
}

/// A process that may open files and directories and look up their names.
pub trait SystemCalls {
    /// An open file. It is closed when it is dropped.
    type File: ReadCall ;

    /// An open directory. Its reads return each name in it with a NUL at its end, and no read ends within a name. It is
    /// closed when it is dropped.
    type Directory: ReadCall ;

    /// Looks up the name. Follows links.
    fn look_up(&self, name: &str) -> io::Result<Metadata>;

    /// Looks up the name. Follows no link at its end.
    fn look_up_itself(&self, name: &str) -> io::Result<Metadata>;

    /// Opens the file of this name for reading.
    fn open(&self, name: &str) -> io::Result<Self::File>;

    /// Opens the directory of this name.
    fn open_directory(&self, name: &str) -> io::Result<Self::Directory>;
}

/// A standard reader, each of whose reads is one call.
pub struct Reads<R> {
    reader: R,
}

impl<R: Read> Reads<R> {
    /// Wraps this reader.
    pub fn new(reader: R) -> Reads<R> {
        Reads { reader }
    }
}

impl<R: Read> ReadCall for Reads<R> {
    fn read_once(&mut self, buf: &mut [u8]) -> io::Result<usize> {
        self.reader.read(buf)
    }
}

/// The process itself. No clause of the standard library states what its calls return.
#[derive(Clone, Copy)]
pub struct Process<'a, P> {
    process: &'a P,
}

impl<'a, P: Files> Process<'a, P> {
    /// Creates the calls of this process.
    pub fn new(process: &'a P) -> Process<'a, P> {
        Process { process }
    }
}

impl<P: Files> SystemCalls for Process<'_, P> {
    type File = Reads<P::File>;

    type Directory = Reads<P::Dir>;

    fn look_up(&self, name: &str) -> io::Result<Metadata> {
        fs::metadata(self.process, name)
    }

    fn look_up_itself(&self, name: &str) -> io::Result<Metadata> {
        fs::symlink_metadata(self.process, name)
    }

    fn open(&self, name: &str) -> io::Result<Reads<P::File>> {
        match fs::open(self.process, name) {
            Ok(file) => Ok(Reads::new(file)),
            Err(error) => Err(error),
        }
    }

    fn open_directory(&self, name: &str) -> io::Result<Reads<P::Dir>> {
        match self.process.open_dir(name) {
            Ok(directory) => Ok(Reads::new(directory)),
            Err(error) => Err(error),
        }
    }
}
