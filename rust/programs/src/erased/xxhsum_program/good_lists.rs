// SPDX-License-Identifier: MIT
// crates/xxhsum_program/src/good_lists.rt without its contracts, written by rust/erase --programs: change that file.

//! Lemmas about the check of lists: what a good list and a line "OK" guarantee.

use crate::programs::xxh_io::streams::Source;
use crate::programs::xxhsum_fs::store::Store;
use crate::programs::xxhsum_line::laws::laws_of_lines;

/// Lemma: the file of each well-formed line of a good list has the line's value, or is missing and the options ignore
/// missing files. `check_list` guarantees that its lines are found so, and that it returns true only for a good list;
/// `run` then exits with 0.
pub fn good_means_equal<S: Store, R: Source>() {}

/// Lemma: "OK" is printed only for a file whose bytes have the line's value, whatever bytes the names have.
pub fn ok_means_equal<S: Store>() {
    laws_of_lines();
}
