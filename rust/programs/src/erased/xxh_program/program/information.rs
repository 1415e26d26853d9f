// SPDX-License-Identifier: MIT
// crates/xxh_program/src/program/information.rt without its contracts, written by rust/erase --programs: change that file.

//! The help and the version.

use crate::rattle::prelude::String;
use crate::programs::xxh_program::program::process::flush;
use crate::rattle::io::Write;
use crate::programs::xxh_io::digest_error::DigestError;
use crate::programs::xxh_io::fault::Fault;
use crate::programs::xxh_io::from_write::FromWrite;
use crate::programs::xxh_io::streams::Sink;
use crate::programs::xxh_io::write::write_all;

/// A text about the program.
#[derive(Clone, Copy, Debug, PartialEq, Eq)]
pub enum Information {
    /// `--help`.
    Help,
    /// `--version`.
    Version,
}

/// The help: the commands and what they print.
pub const HELP: &[u8] = b"xxh prints digests of standard input: XXH32, XXH64 and XXH3.

Usage: xxh hash KIND [SEED]    print the digest
       xxh save KIND [SEED]    print the state of the hasher after the input, as JSON
       xxh resume KIND JSON    continue from such a state, and print the digest
       xxh blocks SIZE         print the XXH3 128-bit digest of each SIZE bytes
       xxh --help | --version

KIND is 32, 64, 3-64 or 3-128, and 32 or 64 for save and resume.
";

/// The version.
pub const VERSION: &[u8] = b"xxh 0.1.0 of twox_hash\n";

impl Information {
    /// Returns the text.
    pub fn text(self) -> &'static [u8] {
        match self {
            Information::Help => HELP,
            Information::Version => VERSION,
        }
    }
}

/// Returns what the arguments, the program's name first, ask about the program: `--help` or `--version` as the only
/// one after the name.
pub fn information_of(args: &[String]) -> Option<Information> {
    match args {
        [_, word] => information_named(word.as_str()),
        _ => None,
    }
}

fn information_named(word: &str) -> Option<Information> {
    match word {
        "--help" => Some(Information::Help),
        "--version" => Some(Information::Version),
        _ => None,
    }
}

fn write_information<W: Sink>(information: Information, w: &mut W) -> Result<(), DigestError> {
    write_all(information.text(), w)
}

/// Prints the text, and flushes the output.
///
/// # Errors
///
/// A failed write or flush.
pub fn print_information<W: Write>(
    information: Information,
    out: &mut FromWrite<W>,
) -> Result<(), Fault> {
    match write_information(information, out) {
        Ok(()) => flush(out),
        Err(error) => Err(Fault::Digest(error)),
    }
}
