// SPDX-License-Identifier: MIT
// crates/xxh_io/src/hex.rt without its contracts, written by rust/erase --programs: change that file.

//! Numbers in hexadecimal, and lines of them.

/// Length of a block's line: 16 digits, a space, 32 digits and a newline.
pub const LINE: usize = 50;

// Returns the lower-case digit of a number below 16.
fn digit(n: u8) -> u8 {
    if n < 10 { b'0' + n } else { b'a' - 10 + n }
}

/// Fills the slice with the value's lowest digits, the lowest of them last.
pub fn write_digits(value: u128, out: &mut [u8]) {
    let mut rest = value;
    for i in (0..out.len()).rev() {
        out[i] = digit((rest % 16) as u8);
        rest /= 16;
    }
}

/// Returns the line of a block with this offset and this value.
pub fn offset_line(offset: u64, value: u128) -> [u8; LINE] {
    let mut line = [b'\n'; LINE];
    write_digits(u128::from(offset), &mut line[..16]);
    line[16] = b' ';
    write_digits(value, &mut line[17..49]);
    line
}
