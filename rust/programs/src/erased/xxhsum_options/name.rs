// SPDX-License-Identifier: MIT
// crates/xxhsum_options/src/name.rt without its contracts, written by rust/erase --programs: change that file.

//! The program's name.

use crate::programs::xxh_io::kind::Kind;

/// Returns the algorithm of a program of this name, if no option selects one. The name is the last part of the path by
/// which it was called.
pub fn default_kind(program: &[u8]) -> Kind {
    if has_part(b"xxh3sum", program) {
        Kind::X3_64
    } else if has_part(b"xxh128sum", program) {
        Kind::X3_128
    } else if has_part(b"xxh64sum", program) {
        Kind::X64
    } else if has_part(b"xxh32sum", program) {
        Kind::X32
    } else {
        Kind::X64
    }
}

// True if the name contains the text.
fn has_part(text: &[u8], name: &[u8]) -> bool {
    for start in 0..name.len() {
        if name[start..].starts_with(text) {
            return true;
        }
    }
    false
}
