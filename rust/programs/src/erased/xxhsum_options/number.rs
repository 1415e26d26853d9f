// SPDX-License-Identifier: MIT
// crates/xxhsum_options/src/number.rt without its contracts, written by rust/erase --programs: change that file.

//! A number after a letter, and its unit.

/// A number at the start of letters.
#[derive(Clone, Copy, Debug, PartialEq, Eq)]
pub(crate) struct Number {
    pub value: u32,
    /// Number of letters that it takes, with its unit.
    pub letters: usize,
}

/// A unit at the start of letters.
#[derive(Clone, Copy, Debug, PartialEq, Eq)]
pub(crate) struct Unit {
    pub factor: u32,
    /// Number of letters that it takes.
    pub letters: usize,
}

// The largest number that another digit may follow.
const MOST_BEFORE_A_DIGIT: u32 = 429_496_728;

/// Parses the number at the start of the letters, 0 if they begin with no digit. `None` if it is too large.
pub(crate) fn number_at(letters: &[u8]) -> Option<Number> {
    let digits = digit_count(letters);
    let value = value_of(&letters[..digits])?;
    let unit = unit_at(&letters[digits..]);
    Some(Number {
        value: value.checked_mul(unit.factor)?,
        letters: digits + unit.letters,
    })
}

// Returns the number of digits that the letters begin with.
fn digit_count(letters: &[u8]) -> usize {
    letters
        .iter()
        .take_while(|letter| letter.is_ascii_digit())
        .count()
}

// Returns the value of the digits. `None` if it is too large.
fn value_of(digits: &[u8]) -> Option<u32> {
    let mut value = 0u32;
    for digit in digits {
        if value > MOST_BEFORE_A_DIGIT {
            return None;
        }
        value = value * 10 + u32::from(digit - b'0');
    }
    Some(value)
}

// Parses the unit at the start of the letters: K or M with `i`, `B`, `iB` or nothing after it; or none.
fn unit_at(letters: &[u8]) -> Unit {
    if let Some(rest) = letters.strip_prefix(b"K") {
        return Unit {
            factor: 1024,
            letters: 1 + suffix_letters(rest),
        };
    }
    if let Some(rest) = letters.strip_prefix(b"M") {
        return Unit {
            factor: 1024 * 1024,
            letters: 1 + suffix_letters(rest),
        };
    }
    Unit {
        factor: 1,
        letters: 0,
    }
}

// Returns how many letters of `iB`, `i` or `B` the letters begin with.
fn suffix_letters(letters: &[u8]) -> usize {
    match letters {
        [b'i', b'B', ..] => 2,
        [b'i' | b'B', ..] => 1,
        _ => 0,
    }
}
