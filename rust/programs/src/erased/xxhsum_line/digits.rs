// SPDX-License-Identifier: MIT
// crates/xxhsum_line/src/digits.rt without its contracts, written by rust/erase --programs: change that file.

//! Hexadecimal digits of either case, and their values.

use crate::programs::xxh_io::kind::Kind;

/// Maximum number of digits of a digest.
pub const MOST_DIGITS: usize = 32;

/// Returns the value of a digit of either case. `None` if the byte is no digit.
pub fn digit_of(byte: u8) -> Option<u8> {
    match byte {
        b'0'..=b'9' => Some(byte - b'0'),
        b'a'..=b'f' => Some(byte - b'a' + 10),
        b'A'..=b'F' => Some(byte - b'A' + 10),
        _ => None,
    }
}

/// Returns the value of at most 32 digits, the most significant first. `None` if a byte is no digit.
pub fn number_of(digits: &[u8]) -> Option<u128> {
    let mut number: u128 = 0;
    for byte in digits {
        let digit = digit_of(*byte)?;
        number = number * 16 + u128::from(digit);
    }
    Some(number)
}

/// Returns the digest by this algorithm; if `is_little`, with its bytes in reverse order.
pub fn in_order(kind: Kind, is_little: bool, value: u128) -> u128 {
    if !is_little {
        return value;
    }
    let mut left = value;
    let mut reversed: u128 = 0;
    for done in 0..kind.digits() / 2 {
        reversed = reversed * 256 + left % 256;
        left /= 256;
    }
    reversed
}

/// Returns the digest of the digits by this algorithm, with its least significant byte first if `is_little`. `None` if
/// the algorithm has another number of digits, or a byte is no digit.
pub fn value_shown(kind: Kind, digits: &[u8], is_little: bool) -> Option<u128> {
    if digits.len() != kind.digits() {
        return None;
    }
    let number = number_of(digits)?;
    Some(in_order(kind, is_little, number))
}
