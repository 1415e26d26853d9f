// SPDX-License-Identifier: MIT
// crates/xxhsum_audit/src/verdict.rt without its contracts, written by rust/erase --programs: change that file.

//! The result of an audit for a line, a name, or both.

use crate::programs::xxhsum_audit::digest::FileDigest;
use crate::programs::xxhsum_audit::order::{compare_digests, rank_digests, rank_names};
use std::cmp::Ordering;

/// The result of a line, of a name, or of both.
#[derive(Clone, Copy, Debug, PartialEq, Eq)]
pub enum Verdict<'n> {
    /// The file of the name is as in the line.
    Same {
        line: FileDigest<'n>,
        name: FileDigest<'n>,
    },
    /// The file of the line's name has another digest.
    Changed {
        line: FileDigest<'n>,
        name: FileDigest<'n>,
    },
    /// The line's name is gone, and a name without a line has its digest.
    Moved {
        line: FileDigest<'n>,
        name: FileDigest<'n>,
    },
    /// No line has the name, and an unchanged file has its digest.
    Copied {
        original: FileDigest<'n>,
        name: FileDigest<'n>,
    },
    /// No line has the name, and neither a remaining line nor an unchanged file has its digest.
    New {
        name: FileDigest<'n>,
    },
    /// The line's name is gone, and no remaining name has its digest.
    Missing {
        line: FileDigest<'n>,
    },
}

/// The six classes of results.
#[derive(Clone, Copy, Debug, PartialEq, Eq)]
pub enum Class {
    Same,
    Changed,
    Moved,
    Copied,
    New,
    Missing,
}

impl<'n> Verdict<'n> {
    /// Returns the result of a line and the current digest of its file.
    pub fn met(line: FileDigest<'n>, name: FileDigest<'n>) -> Verdict<'n> {
        if compare_digests(line, name) == Ordering::Equal {
            Verdict::Same { line, name }
        } else {
            Verdict::Changed { line, name }
        }
    }

    // Returns the digest of the name that it is about.
    pub(crate) fn told(self) -> FileDigest<'n> {
        match self {
            Verdict::Same { name, .. }
            | Verdict::Changed { name, .. }
            | Verdict::Moved { name, .. }
            | Verdict::Copied { name, .. }
            | Verdict::New { name } => name,
            Verdict::Missing { line } => line,
        }
    }

    // Returns the digest that it is compared with: that of the line, or of the original of a copy.
    fn source(self) -> FileDigest<'n> {
        match self {
            Verdict::Same { line, .. }
            | Verdict::Changed { line, .. }
            | Verdict::Moved { line, .. }
            | Verdict::Missing { line } => line,
            Verdict::Copied { original, .. } => original,
            Verdict::New { name } => name,
        }
    }

    // Returns the name that it was moved from or is a copy of.
    pub(crate) fn other(self) -> Option<&'n [u8]> {
        match self {
            Verdict::Moved { line, .. } => Some(line.name),
            Verdict::Copied { original, .. } => Some(original.name),
            _ => None,
        }
    }

    // Returns the listed digest: of the name, of its old name, or of the file that it is a copy of.
    pub(crate) fn listed(self) -> Option<FileDigest<'n>> {
        match self {
            Verdict::New { .. } => None,
            _ => Some(self.source()),
        }
    }

    // Returns the digest that the file has.
    pub(crate) fn actual(self) -> Option<FileDigest<'n>> {
        match self {
            Verdict::Missing { .. } => None,
            _ => Some(self.told()),
        }
    }
}

impl Verdict<'_> {
    /// Returns its class.
    pub fn class(self) -> Class {
        match self {
            Verdict::Same { .. } => Class::Same,
            Verdict::Changed { .. } => Class::Changed,
            Verdict::Moved { .. } => Class::Moved,
            Verdict::Copied { .. } => Class::Copied,
            Verdict::New { .. } => Class::New,
            Verdict::Missing { .. } => Class::Missing,
        }
    }

    // Returns the words for its class in a line.
    pub(crate) fn words(self) -> &'static [u8] {
        match self {
            Verdict::Moved { .. } => b"moved from",
            Verdict::Copied { .. } => b"copy of",
            _ => self.state(),
        }
    }

    // Returns the word for its class in JSON.
    pub(crate) fn state(self) -> &'static [u8] {
        match self {
            Verdict::Same { .. } => b"same",
            Verdict::Changed { .. } => b"changed",
            Verdict::Moved { .. } => b"moved",
            Verdict::Copied { .. } => b"copied",
            Verdict::New { .. } => b"new",
            Verdict::Missing { .. } => b"missing",
        }
    }
}

// Returns the position of a class among the classes.
fn rank_of_class(class: Class) -> u8 {
    match class {
        Class::Same => 0,
        Class::Changed => 1,
        Class::Moved => 2,
        Class::Copied => 3,
        Class::New => 4,
        Class::Missing => 5,
    }
}

// Compares two results by the names that they are about, and then by all else.
fn rank_verdicts(a: Verdict<'_>, b: Verdict<'_>) -> Ordering {
    let classes = rank_of_class(a.class()).cmp(&rank_of_class(b.class()));
    let digests = rank_digests(a.told(), b.told());
    let sources = rank_digests(a.source(), b.source());
    rank_names(a.told().name, b.told().name).then(classes.then(digests.then(sources)))
}

// Sorts results by the names that they are about.
pub(crate) fn put_verdicts_in_order(verdicts: &mut [Verdict<'_>]) {
    verdicts.sort_unstable_by(|a, b| rank_verdicts(*a, *b));
}

/// Returns how many of the results are of this class.
pub fn count_of(class: Class, verdicts: &[Verdict<'_>]) -> usize {
    let mut count = 0;
    for verdict in verdicts {
        if verdict.class() == class {
            count += 1;
        }
    }
    count
}
