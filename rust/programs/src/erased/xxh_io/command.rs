// SPDX-License-Identifier: MIT
// crates/xxh_io/src/command.rt without its contracts, written by rust/erase --programs: change that file.

//! Parses the arguments.

use crate::programs::xxh_io::fault::Fault;
use crate::programs::xxh_io::kind::{Kind, SavedKind};

/// A parsed command.
#[derive(Clone, Copy, Debug, PartialEq, Eq)]
pub enum Command<'w> {
    /// Prints the digest line of the input.
    Hash { kind: Kind, seed: u64 },
    /// Prints the saved text of XXH32 of the input.
    Save32 { seed: u32 },
    /// Prints the saved text of XXH64 of the input.
    Save64 { seed: u64 },
    /// Continues from a saved text of XXH32, and prints the digest line.
    Resume32 { json: &'w str },
    /// Continues from a saved text of XXH64, and prints the digest line.
    Resume64 { json: &'w str },
    /// Prints the digest lines of the blocks of the input.
    Blocks { size: u64 },
}

// The seed if the arguments have none.
const NO_SEED: &str = "0";

/// Parses the arguments after the program's name.
pub fn parse<'w>(words: &[&'w str]) -> Result<Command<'w>, Fault> {
    match words {
        [name, word] => match *name {
            "hash" => hash(word, NO_SEED),
            "save" => save(word, NO_SEED),
            "blocks" => blocks(word),
            _ => Err(Fault::Usage),
        },
        [name, kind, last] => match *name {
            "hash" => hash(kind, last),
            "save" => save(kind, last),
            "resume" => resume(kind, last),
            _ => Err(Fault::Usage),
        },
        _ => Err(Fault::Usage),
    }
}

fn hash(kind: &str, seed: &str) -> Result<Command<'static>, Fault> {
    let kind = kind_from(kind)?;
    let seed = number_from(seed, kind.most_seed(), Fault::BadSeed)?;
    Ok(Command::Hash { kind, seed })
}

fn save(kind: &str, seed: &str) -> Result<Command<'static>, Fault> {
    match saved_kind_from(kind)? {
        SavedKind::X32 => {
            let seed = number_from(seed, u64::from(u32::MAX), Fault::BadSeed)?;
            Ok(Command::Save32 { seed: seed as u32 })
        }
        SavedKind::X64 => {
            let seed = number_from(seed, u64::MAX, Fault::BadSeed)?;
            Ok(Command::Save64 { seed })
        }
    }
}

fn resume<'w>(kind: &str, json: &'w str) -> Result<Command<'w>, Fault> {
    Ok(match saved_kind_from(kind)? {
        SavedKind::X32 => Command::Resume32 { json },
        SavedKind::X64 => Command::Resume64 { json },
    })
}

fn blocks(size: &str) -> Result<Command<'static>, Fault> {
    match number_from(size, u64::MAX, Fault::BadSize)? {
        0 => Err(Fault::BadSize),
        size => Ok(Command::Blocks { size }),
    }
}

// Returns the algorithm of this name.
fn kind_from(name: &str) -> Result<Kind, Fault> {
    match name {
        "32" => Ok(Kind::X32),
        "64" => Ok(Kind::X64),
        "3-64" => Ok(Kind::X3_64),
        "3-128" => Ok(Kind::X3_128),
        _ => Err(Fault::Usage),
    }
}

// Returns the algorithm of this name, if its hashers have saved states.
fn saved_kind_from(name: &str) -> Result<SavedKind, Fault> {
    match name {
        "32" => Ok(SavedKind::X32),
        "64" => Ok(SavedKind::X64),
        _ => Err(Fault::Usage),
    }
}

// Parses a number in decimal digits, up to the maximum, or returns this error.
fn number_from(word: &str, most: u64, fault: Fault) -> Result<u64, Fault> {
    // `parse` also accepts a sign.
    if word.starts_with('+') {
        return Err(fault);
    }
    match word.parse::<u64>() {
        Ok(number) if number <= most => Ok(number),
        _ => Err(fault),
    }
}
