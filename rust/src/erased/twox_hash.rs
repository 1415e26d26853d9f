// SPDX-License-Identifier: MIT
// crates/twox_hash/src/lib.rt without its contracts, written by rust/erase: change that file.

//! XXH32, XXH64 and XXH3 with the API of the Rust crate `twox-hash`. Each function is proved to return the value that
//! the xxHash specification defines.

pub mod streams;
pub mod xxhash3_128;
pub mod xxhash3_64;

pub use crate::erased::twox_core::xxhash3;
pub use crate::erased::twox_plain::{xxhash32, xxhash64};
pub use crate::erased::twox_words::words;
pub use xxhash3_64::Hasher as XxHash3_64;
pub use xxhash3_128::Hasher as XxHash3_128;
pub use xxhash32::Hasher as XxHash32;
pub use xxhash64::Hasher as XxHash64;
