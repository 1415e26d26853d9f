// SPDX-License-Identifier: MIT
// crates/xxhsum_audit/src/digest.rt without its contracts, written by rust/erase --programs: change that file.

//! A name and its digest.

use crate::programs::xxh_io::kind::Kind;

/// The file of this name has this value by this algorithm, in a line of a list or now.
#[derive(Clone, Copy, Debug, PartialEq, Eq)]
pub struct FileDigest<'n> {
    /// The name of the file, in bytes.
    pub name: &'n [u8],
    /// The algorithm.
    pub kind: Kind,
    /// The value.
    pub value: u128,
}
