// SPDX-License-Identifier: MIT
// crates/xxhsum_options/src/letters.rt without its contracts, written by rust/erase --programs: change that file.

//! An argument of letters after a single `-`, each an option.

use crate::programs::xxhsum_options::number::number_at;
use crate::programs::xxhsum_options::options::{Options, ParsedArgs, Step};
use crate::programs::xxhsum_options::table::{NO_LETTER, letter_step};
use crate::programs::xxh_io::kind::Kind;

/// A parsed letter: the options after it, and how many of the letters that follow belong to it.
#[derive(Clone, Copy, Debug, PartialEq, Eq)]
pub(crate) struct Letter {
    pub options: Options,
    pub taken: usize,
}

/// Applies the letters of an argument to these options, in order.
pub(crate) fn letters(word: &[u8], mut options: Options) -> Step {
    let mut rest = word;
    while let Some((letter, after)) = rest.split_first() {
        match letter_at(*letter, after, options) {
            Ok(read) => {
                options = read.options;
                rest = &after[read.taken..];
            }
            Err(step) => return step,
        }
    }
    Step::Takes(options)
}

// Applies a letter, which these others follow. An error is the result of the whole argument, whatever follows. No letter
// follows `C`.
fn letter_at(letter: u8, after: &[u8], options: Options) -> Result<Letter, Step> {
    if options.awaits_directory {
        return Err(Step::IsWrong);
    }
    match letter {
        NO_LETTER => Err(Step::IsWrong),
        b'H' => kind_letter(after, options),
        b'i' | b'B' => skipped_letter(after, options),
        _ => alone(letter_step(letter, options)),
    }
}

// Returns a letter with no others of its own, by its step.
fn alone(step: Step) -> Result<Letter, Step> {
    match step {
        Step::Takes(options) => Ok(Letter { options, taken: 0 }),
        Step::EndsBefore | Step::EndsAfter | Step::IsWrong | Step::Settles(_) => Err(step),
    }
}

// Applies `H`: the number after it selects the algorithm.
fn kind_letter(after: &[u8], options: Options) -> Result<Letter, Step> {
    let number = number_at(after).ok_or(Step::Settles(ParsedArgs::NumberTooLarge))?;
    let kind = numbered_kind(number.value).ok_or(Step::IsWrong)?;
    Ok(Letter {
        options: Options { kind, ..options },
        taken: number.letters,
    })
}

// Skips `i` or `B`: the number after it belongs to benchmarks, and changes nothing.
fn skipped_letter(after: &[u8], options: Options) -> Result<Letter, Step> {
    let number = number_at(after).ok_or(Step::Settles(ParsedArgs::NumberTooLarge))?;
    Ok(Letter {
        options,
        taken: number.letters,
    })
}

// Returns the algorithm of this number of `-H`.
fn numbered_kind(number: u32) -> Option<Kind> {
    match number {
        0 | 32 => Some(Kind::X32),
        1 | 64 => Some(Kind::X64),
        2 | 128 => Some(Kind::X3_128),
        3 => Some(Kind::X3_64),
        _ => None,
    }
}
