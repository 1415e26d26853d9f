// SPDX-License-Identifier: MIT
#![doc = include_str!("../README.md")]
#![cfg_attr(not(feature = "std"), no_std)]
#![deny(missing_docs, rust_2018_idioms, unsafe_code, unsafe_op_in_unsafe_fn)]

#[cfg(feature = "alloc")]
extern crate alloc;

// The erased source names the core library as Rattle does.
#[cfg(not(feature = "std"))]
extern crate core as std;

#[rustfmt::skip]
#[allow(
    dead_code,
    missing_docs,
    unsafe_code,
    unused_imports,
    unused_labels,
    unused_variables,
    clippy::all,
    reason = "whole crates of Rattle, of which this crate calls a part"
)]
mod erased;
#[allow(unsafe_code, reason = "each block states why it is sound")]
mod buffers;
#[allow(unsafe_code, reason = "each block states why it is sound")]
mod kernels;
#[cfg(all(
    target_arch = "x86_64",
    target_feature = "sse2",
    not(any(miri, target_env = "sgx"))
))]
#[allow(dead_code, reason = "some builds need no question for the processor")]
#[allow(unsafe_code, reason = "each block states why it is sound")]
mod processor;
#[allow(unsafe_code, reason = "each block states why it is sound")]
mod rattle;

// The calls of the standard `Hasher`. An integer is an array of a known length, whose copy is a few moves.
#[cfg(any(feature = "xxhash32", feature = "xxhash64", feature = "xxhash3_64"))]
macro_rules! hasher_calls {
    ($hint:meta, $($name:ident $integer:ty),*) => {
        #[$hint]
        fn write(&mut self, bytes: &[u8]) {
            self.0.write(bytes);
        }

        $(#[inline(always)]
        fn $name(&mut self, integer: $integer) {
            self.0.write_array(&integer.to_ne_bytes());
        })*

        #[inline(always)]
        fn finish(&self) -> u64 {
            self.0.finish()
        }
    };
    ($hint:meta) => {
        hasher_calls! {
            $hint, write_u8 u8, write_u16 u16, write_u32 u32, write_u64 u64, write_u128 u128, write_usize usize
        }
    };
}

#[cfg(any(feature = "xxhash32", feature = "xxhash64"))]
#[macro_use]
mod plain;
#[cfg(any(feature = "xxhash3_64", feature = "xxhash3_128"))]
#[macro_use]
mod xxhash3;

#[cfg(feature = "xxhash32")]
pub mod xxhash32;
#[cfg(feature = "xxhash3_128")]
pub mod xxhash3_128;
#[cfg(feature = "xxhash3_64")]
pub mod xxhash3_64;
#[cfg(feature = "xxhash64")]
pub mod xxhash64;

#[cfg(feature = "xxhash32")]
pub use xxhash32::Hasher as XxHash32;
#[cfg(feature = "xxhash3_128")]
pub use xxhash3_128::Hasher as XxHash3_128;
#[cfg(feature = "xxhash3_64")]
pub use xxhash3_64::Hasher as XxHash3_64;
#[cfg(feature = "xxhash64")]
pub use xxhash64::Hasher as XxHash64;
