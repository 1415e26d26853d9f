// SPDX-License-Identifier: MIT
// crates/xxhsum_program/src/usage.rt without its contracts, written by rust/erase --programs: change that file.

//! The help and the version.

use crate::programs::xxhsum_program::stderr::eprint_parts;
use crate::programs::xxh_io::streams::Sink;
use crate::programs::xxhsum_options::table::{Action, NO_LETTER, ROWS};

// The first line of help and version, after the program's name.
pub(crate) const TITLE: &[u8] =
    b" 0.1.0 of twox_hash, compiled by rustc from proved source, with the messages of xxhsum 0.8.1 and the options and lines of 0.8.3";

pub(crate) const ABOUT: &[u8] =
    b"Print or check xxHash checksums of files: XXH32, XXH64 or XXH3.\n\n";

// The help before and after the table of options.
pub(crate) const BEFORE: &[u8] = b"
With no FILE, or when FILE is -, read standard input.

  -H#                 the algorithm: 0 or 32, 1 or 64 (default), 2 or 128, 3 (XXH3 of 64 bits)
";

pub(crate) const BEHIND: &[u8] = b"
If standard error is a terminal, the progress of long files is shown there.

The exit status is 0 if every file was read and matches its checksum, if it has one; otherwise 1.
";

pub(crate) const NO_BENCHMARK: &[u8] = b": this xxhsum has no benchmark";

// Writes the lines of all options in the help.
pub(crate) fn eprint_options<E: Sink>(err: &mut E) {
    eprint_rows(&ROWS, err);
}

// Writes the lines of these options.
fn eprint_rows<E: Sink>(rows: &[(u8, &str, Action, &str)], err: &mut E) {
    if let Some((row, rest)) = rows.split_first() {
        eprint_row(row.0, row.1.as_bytes(), row.3.as_bytes(), err);
        eprint_rows(rest, err);
    }
}

// Writes the line of an option. Options without help text have none.
fn eprint_row<'a, E: Sink>(letter: u8, name: &'a [u8], help: &'a [u8], err: &mut E) {
    if help.len() == 0 {
        return;
    }
    let short = [b'-', letter, b',', b' '];
    let shown = shown_letter(letter, &short);
    let parts: [&[u8]; 6] = [b"  ", shown, b"--", name, help, b"\n"];
    eprint_parts(&parts, err);
}

// Returns the text before the name of an option with this letter.
fn shown_letter<'a>(letter: u8, short: &'a [u8; 4]) -> &'a [u8] {
    if letter == NO_LETTER { b"" } else { short }
}
