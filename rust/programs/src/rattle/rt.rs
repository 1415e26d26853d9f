// SPDX-License-Identifier: MIT
//! The process, as Rattle passes it to `main`.

use std::fs::{File, Metadata};
use std::time::Duration;

use super::clock::monotonic;
pub use super::clock::Clock;
pub use super::env::Env;
use super::fs::{self, Dir, Files};
use super::io::{self, Stderr, Stdin, Stdout};
use super::process::Arguments;
use super::Global;

/// The arguments, files, streams and clock of a process.
#[derive(Clone, Copy)]
pub struct HostRuntime {
    arguments: Arguments,
}

/// A process with the global allocator.
pub trait AllocGlobal {
    /// "The global allocator."
    fn alloc(&self) -> Global {
        Global
    }
}

impl AllocGlobal for HostRuntime {}

impl Clock for HostRuntime {
    fn monotonic(&self) -> io::Result<Duration> {
        monotonic()
    }
}

impl HostRuntime {
    /// Returns the process with these arguments.
    pub fn new(arguments: Arguments) -> Self {
        HostRuntime { arguments }
    }

    /// [`AllocGlobal::alloc`], which Rattle's prelude has for each file.
    pub fn alloc(&self) -> Global {
        Global
    }

    /// "Standard input."
    pub fn stdin(&self) -> Stdin {
        Stdin
    }

    /// "Standard output."
    pub fn stdout(&self) -> Stdout {
        Stdout
    }

    /// "Standard error."
    pub fn stderr(&self) -> Stderr {
        Stderr
    }
}

impl Env for HostRuntime {
    fn argument(&self, index: usize) -> Option<&[u8]> {
        self.arguments.get(index)
    }
}

impl Files for HostRuntime {
    type File = File;
    type Dir = Dir;

    fn open_file(&self, path: &str) -> io::Result<File> {
        fs::with_memory_for(path, File::open)
    }

    fn open_dir(&self, path: &str) -> io::Result<Dir> {
        fs::with_memory_for(path, Dir::open)
    }

    fn metadata(&self, path: &str) -> io::Result<Metadata> {
        fs::with_memory_for(path, std::fs::metadata)
    }

    fn symlink_metadata(&self, path: &str) -> io::Result<Metadata> {
        fs::with_memory_for(path, std::fs::symlink_metadata)
    }
}
