// SPDX-License-Identifier: MIT
//! The programs `xxh` and `xxhsum`: proved source without its contracts, and what it needs of a process.
//!
//! | module | contents |
//! |---|---|
//! | [`programs`] | the proved crates of the programs without their contracts, written by `rust/erase --programs` |
//! | [`rattle`] | the parts of Rattle's standard library that they call. Nothing there is proved |
//! | the others | files of that crate, which has no public name for the programs |
#![deny(rust_2018_idioms, unsafe_op_in_unsafe_fn)]

pub mod rattle;

#[rustfmt::skip]
#[allow(
    dead_code,
    missing_docs,
    unused_imports,
    unused_variables,
    clippy::all,
    reason = "whole crates of Rattle, of which the programs call a part"
)]
#[path = "erased/mod.rs"]
pub mod programs;

// ---- The crate next to this package, by its files ----

#[rustfmt::skip]
#[allow(
    dead_code,
    missing_docs,
    unused_imports,
    unused_labels,
    unused_variables,
    clippy::all,
    reason = "whole crates of Rattle, of which the programs call a part"
)]
#[path = "../../src/erased/mod.rs"]
mod erased;

#[path = "../../src/kernels.rs"]
mod kernels;

#[path = "../../src/buffers.rs"]
mod buffers;

#[cfg(all(
    target_arch = "x86_64",
    target_feature = "sse2",
    not(any(miri, target_env = "sgx"))
))]
#[allow(dead_code, reason = "some builds need no question for the processor")]
#[path = "../../src/processor.rs"]
mod processor;

// A module folder, so that the file's own modules are found.
#[path = "../../src"]
mod crate_files {
    pub mod rattle;
}
