// SPDX-License-Identifier: MIT
// crates/xxhsum_audit/src/laws.rt without its contracts, written by rust/erase --programs: change that file.

//! The laws of audits.

/// Lemma (no code), the laws of audits. An audit reports each line of the list once and each name once. No two lines
/// have one path, and no two names do. Its classes are correct: same and changed are of a line and a name with one
/// path; moved is of a line and a name with one digest of one algorithm, whose paths none of the others has; copied is
/// of a name with the digest of an unchanged file of the list, the first such; new and missing are of only a name and
/// only a line. No missing line has the digest of a new name or of a copy, and no new name has that of an unchanged
/// file. If all are the same, each line has its file, and each name its line. The counts add up to the lines and to the
/// names. The audit of the same lines and names in any other order is the same, also for a list joined from the lists
/// of several jobs.
pub fn laws_of_audits() {}

/// Lemma (no code), the laws of an audit's text. Each result is one line, whatever names it has. Two results with one
/// line have the same name, class and other name; so have two with one record that ends with a NUL, if no name has a
/// NUL. A JSON object is one line, and two results with one object have the same members.
pub fn laws_of_texts() {}
