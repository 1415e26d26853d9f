// SPDX-License-Identifier: MIT
// crates/xxhsum_program/src/printed_lists.rt without its contracts, written by rust/erase --programs: change that file.

//! Lemmas about the check of lists that the program printed.

use crate::programs::xxh_io::script_source::SliceSource;
use crate::programs::xxh_io::streams::Source;
use crate::programs::xxhsum_fs::store::Store;

/// Lemma: a printed list is accepted whole. The names of its entries contain no NUL, and each line has at most 32,767
/// bytes, as the line of a name of at most 16,359 bytes does. However the reads split the list, its lines are those of
/// the entries in order, each line means its entry and nothing else, and the findings are the states of the entries'
/// files. A source holds a list if its reads return exactly that list, as the reads of a slice do.
pub fn laws_of_printed_lists<S: Store, R: Source >() {}

/// Lemma: the output of a hashing run, if at least one name has a value, is a good list while the files stay unchanged.
/// That holds whatever directories and unreadable files were among the names, for every check that reaches the end of
/// the list, and under all options. The names contain no NUL and have at most 16,359 bytes.
pub fn printed_is_good<S: Store, R: Source >() {}
