// SPDX-License-Identifier: MIT
// crates/xxhsum_options/src/table.rt without its contracts, written by rust/erase --programs: change that file.

//! The options, each in one row: its letter, its name, its effect, and its text in the help.

use crate::programs::xxhsum_options::options::{NamesFrom, Options, ParsedArgs, Step};

/// The effect of an option.
#[derive(Clone, Copy, Debug, PartialEq, Eq)]
pub enum Action {
    /// The names are lists, which are checked.
    Checks,
    /// The first name is a checksum list, with which the other files are compared.
    Audits,
    /// The argument after it is the form of an audit's results.
    Formats,
    /// Directories are walked: their names mean the files below them.
    Walks,
    /// The argument after it is a pattern: names in directories that match it are skipped.
    Excludes,
    /// The argument after it is the directory that names are relative to.
    Enters,
    /// The names are read from lists of this form.
    Lists(NamesFrom),
    /// Lines are printed BSD-style.
    Tags,
    /// Digests have their lowest byte first.
    TurnsRound,
    /// Lines end with a NUL.
    EndsInNul,
    /// Nothing: files are read as they are.
    Nothing,
    /// OK isn't printed for a verified file.
    Quiets,
    /// A check prints no result.
    Silences,
    /// Missing files are ignored.
    IgnoresMissing,
    /// A malformed line makes its list a bad one.
    IsStrict,
    /// Malformed lines are reported.
    Warns,
    /// The arguments after it are names.
    EndsOptions,
    /// It determines the result, whatever follows.
    Returns(ParsedArgs),
}

/// The letter of an option without one.
pub const NO_LETTER: u8 = b'-';

/// All options except those whose letter takes a number: the letter after `-`, the name after `--`, its effect, and its
/// text in the help, which is empty if the help has no line for it.
pub const ROWS: [(u8, &str, Action, &str); 23] = [
    (
        b'c',
        "check",
        Action::Checks,
        "         read checksums from the FILEs and check them",
    ),
    (
        b'-',
        "audit",
        Action::Audits,
        "             compare the FILEs with the first one, a checksum list",
    ),
    (
        b'-',
        "format",
        Action::Formats,
        " FORMAT     with --audit: print text, the default, or json, an object per line",
    ),
    (
        b'r',
        "recursive",
        Action::Walks,
        "     read the files below each directory, sorted by name;\n                      not with -c or lists of names",
    ),
    (
        b'-',
        "exclude",
        Action::Excludes,
        " PATTERN   with -r: skip files and directories whose name matches PATTERN:\n                      * any bytes, ? any byte, \\ quotes; not the FILEs themselves",
    ),
    (
        b'C',
        "directory",
        Action::Enters,
        " DIR\n                      as after 'cd DIR': names, also those in lists, are relative to DIR",
    ),
    (
        b'-',
        "files-from",
        Action::Lists(NamesFrom::Lines),
        ", --filelist\n                      read the names of files from the FILEs, one name per line",
    ),
    (b'-', "filelist", Action::Lists(NamesFrom::Lines), ""),
    (
        b'-',
        "files0-from",
        Action::Lists(NamesFrom::Nuls),
        "       the same, with a NUL after each name",
    ),
    (
        b'-',
        "tag",
        Action::Tags,
        "               print BSD-style checksum lines",
    ),
    (
        b'-',
        "little-endian",
        Action::TurnsRound,
        "     print digests with the least significant byte first",
    ),
    (
        b'z',
        "zero",
        Action::EndsInNul,
        "          end each line with NUL, and disable escaping; not with -c",
    ),
    (
        b'-',
        "binary",
        Action::Nothing,
        "            ignored: files are read as they are",
    ),
    (
        b'q',
        "quiet",
        Action::Quiets,
        "         no progress; with -c: don't print OK for each successfully verified file",
    ),
    (
        b'-',
        "status",
        Action::Silences,
        "            no progress; with -c: don't print anything, the exit status shows success",
    ),
    (
        b'-',
        "ignore-missing",
        Action::IgnoresMissing,
        "    with -c: don't fail or report status for missing files",
    ),
    (
        b'-',
        "strict",
        Action::IsStrict,
        "            with -c: exit non-zero for improperly formatted checksum lines",
    ),
    (
        b'w',
        "warn",
        Action::Warns,
        "          with -c: warn about improperly formatted checksum lines",
    ),
    (
        b'h',
        "help",
        Action::Returns(ParsedArgs::Help),
        "          print this help",
    ),
    (
        b'V',
        "version",
        Action::Returns(ParsedArgs::Version),
        "       print the version",
    ),
    (b'-', "", Action::EndsOptions, ""),
    (
        b'b',
        "bench-all",
        Action::Returns(ParsedArgs::Benchmark),
        "",
    ),
    (
        b'-',
        "benchmark-all",
        Action::Returns(ParsedArgs::Benchmark),
        "",
    ),
];

// Applies `--` and this name to these options.
pub(crate) fn name_step(name: &[u8], options: Options) -> Step {
    name_in(&ROWS, name, options)
}

// Applies the first of these rows with this name.
fn name_in(rows: &[(u8, &str, Action, &str)], name: &[u8], options: Options) -> Step {
    match rows.split_first() {
        Some((row, rest)) => {
            if name == row.1.as_bytes() {
                return action_step(row.2, options);
            }
            name_in(rest, name, options)
        }
        None => Step::IsWrong,
    }
}

// Applies `-` and this letter to these options.
pub(crate) fn letter_step(letter: u8, options: Options) -> Step {
    letter_in(&ROWS, letter, options)
}

// Applies the first of these rows with this letter.
fn letter_in(rows: &[(u8, &str, Action, &str)], letter: u8, options: Options) -> Step {
    match rows.split_first() {
        Some((row, rest)) => {
            if letter == row.0 {
                return action_step(row.2, options);
            }
            letter_in(rest, letter, options)
        }
        None => Step::IsWrong,
    }
}

// Applies an option to these options.
fn action_step(action: Action, mut options: Options) -> Step {
    match action {
        Action::Checks => options.checks = true,
        Action::Audits => options.audits = true,
        Action::Formats => options.awaits_format = true,
        Action::Walks => options.walks = true,
        Action::Excludes => options.awaits_pattern = true,
        Action::Enters => options.awaits_directory = true,
        Action::Lists(from) => options.names_from = from,
        Action::Tags => options.is_tagged = true,
        Action::TurnsRound => options.is_little_endian = true,
        Action::EndsInNul => options.ends_in_nul = true,
        Action::Nothing => {}
        Action::Quiets => options.is_quiet = true,
        Action::Silences => options.is_status_only = true,
        Action::IgnoresMissing => options.ignores_missing = true,
        Action::IsStrict => options.is_strict = true,
        Action::Warns => options.warns = true,
        Action::EndsOptions => return Step::EndsAfter,
        Action::Returns(parsed) => return Step::Settles(parsed),
    }
    Step::Takes(options)
}
