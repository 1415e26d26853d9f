// SPDX-License-Identifier: MIT
//! Replaces the parts of Rattle's standard library and of its ports of crates that the programs call.
//!
//! Nothing here is proved. The proofs of the programs rest on the contracts of Rattle's library. The comment of each
//! function quotes the sentence that it must satisfy.
//!
//! No function here panics, and none stops the process if out of memory: each allocates with `try_reserve`.

pub mod clock;
pub mod env;
pub mod fs;
pub mod io;
pub mod itoa;
mod json_reader;
pub mod memchr;
pub mod process;
pub mod rt;
pub mod serde_json;
pub mod vec;

pub use crate::crate_files::rattle::*;

/// The names of Rattle's prelude that Rust's lacks, or uses for something else.
pub mod prelude {
    pub use super::rt::{AllocGlobal, HostRuntime};
    pub(crate) use super::vec::vec;
    pub use super::vec::{String, Vec};
    pub(crate) use crate::crate_files::rattle::prelude::{prove, Clone};
}
