// SPDX-License-Identifier: MIT
//! Numbers in decimal digits, as the crate `itoa` writes them.

/// A number that can be written.
pub trait Integer {
    /// Returns the same number.
    fn wide(self) -> u64;
}

impl Integer for u64 {
    fn wide(self) -> u64 {
        self
    }
}

impl Integer for usize {
    fn wide(self) -> u64 {
        // A `usize` has at most 64 bits.
        self as u64
    }
}

/// A buffer for the digits of a number.
pub struct Buffer([u8; 20]);

impl Buffer {
    /// Creates an empty buffer.
    #[allow(clippy::new_without_default, reason = "the source calls `new`")]
    pub fn new() -> Buffer {
        Buffer([b'0'; 20])
    }

    /// "The decimal digits of the number, without leading zeros."
    pub fn format(&mut self, number: impl Integer) -> &str {
        let (mut rest, mut start) = (number.wide(), self.0.len());
        while start > 0 && (rest > 0 || start == self.0.len()) {
            start -= 1;
            self.0[start] = b'0' + (rest % 10) as u8;
            rest /= 10;
        }
        std::str::from_utf8(&self.0[start..]).unwrap_or("")
    }
}

#[cfg(test)]
mod tests {
    use super::*;

    #[test]
    fn digits_are_those_of_display() {
        let powers = (0..20).map(|power| 10u64.pow(power));
        for number in powers
            .flat_map(|power| [power - 1, power, power + 1])
            .chain([u64::MAX])
        {
            assert_eq!(Buffer::new().format(number), number.to_string());
        }
    }
}
