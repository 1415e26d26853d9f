// SPDX-License-Identifier: MIT
//! The kernels as assembly source of the proved functions of `crates/twox_rust`.
//!
//! This file and [`processor`](crate::processor) are trusted: each declaration has the arguments of the export of its
//! name, in the same order. The names contain the number of the interface, which changes with every change of a call or
//! of a record, so that two versions of this crate can be linked into one program. The assembler may put the sources of
//! several versions into one module, so each local name ends in that number too.

use crate::erased::twox_core::width_128::Wide;
use crate::erased::twox_core::xxhash3::{CoreState, Secret};
use crate::erased::twox_plain::xxhash32::{Core, SavedState, StateInMemory};
#[cfg(target_arch = "x86_64")]
use crate::processor::{level, Level, IS_BUILT_FOR_V3, IS_BUILT_FOR_V4};

#[cfg(target_arch = "x86_64")]
core::arch::global_asm!(include_str!("../../asm/x86-64.s"), options(att_syntax, raw));
#[cfg(target_arch = "x86_64")]
core::arch::global_asm!(
    include_str!("../../asm/x86-64-v3.s"),
    options(att_syntax, raw)
);
#[cfg(target_arch = "x86_64")]
core::arch::global_asm!(
    include_str!("../../asm/x86-64-v4.s"),
    options(att_syntax, raw)
);
#[cfg(target_arch = "aarch64")]
core::arch::global_asm!(include_str!("../../asm/aarch64.s"), options(raw));

/// Declares each export, in a module of its name with a function for each instruction set. A slice is passed as its
/// address and its length. No export keeps an address or accesses memory outside its arguments.
macro_rules! exports {
    ($(fn $name:ident($($kind:ty),*) -> $answer:ty;)*) => {
        $(mod $name {
            use super::*;
            extern "C" {
                #[link_name = concat!("twox_rust_7_", stringify!($name))]
                pub fn base($(_: $kind),*) -> $answer;
                #[cfg(target_arch = "x86_64")]
                #[link_name = concat!("twox_rust_7_", stringify!($name), "_v3")]
                pub fn v3($(_: $kind),*) -> $answer;
                #[cfg(target_arch = "x86_64")]
                #[link_name = concat!("twox_rust_7_", stringify!($name), "_v4")]
                pub fn v4($(_: $kind),*) -> $answer;
            }
        })*
    };
}

exports! {
    fn xxh32_write(&mut StateInMemory, *const u8, usize) -> u32;
    fn xxh3_64_long(*const u8, usize, *const u8, usize) -> Answer;
    fn xxh3_128_long(*const u8, usize, *const u8, usize, &mut Wide) -> u32;
    fn xxh3_write(&mut CoreState, *const u8, usize, *const u8, usize) -> u32;
}

/// A code, and the value if it is 0.
#[derive(Clone, Copy)]
#[repr(C)]
struct Answer {
    code: u32,
    value: u64,
}

/// Calls an export by the instruction set of a level.
#[cfg(target_arch = "x86_64")]
macro_rules! call {
    ($level:expr, $name:ident($($argument:expr),*)) => {
        // SAFETY: the declaration is the export's. What it reads and writes are borrows that last for the call: whole slices
        // and records of its layout, of which those that it writes overlap no other. The processor has the level's
        // instructions.
        unsafe {
            match $level {
                Level::V4 => $name::v4($($argument),*),
                Level::V3 => $name::v3($($argument),*),
                Level::Base => $name::base($($argument),*),
            }
        }
    };
}
#[cfg(not(target_arch = "x86_64"))]
macro_rules! call {
    ($level:expr, $name:ident($($argument:expr),*)) => {
        // SAFETY: as above.
        unsafe { $name::base($($argument),*) }
    };
}

/// Returns the level for a long input.
#[cfg(target_arch = "x86_64")]
#[inline(always)]
fn level_for_input() -> Level {
    if IS_BUILT_FOR_V4 {
        Level::V4
    } else {
        level()
    }
}

/// Returns the level for a chunk of this many bytes.
#[cfg(target_arch = "x86_64")]
#[inline(always)]
fn level_for_piece(length: usize) -> Level {
    const LONG: usize = 2048;
    match level_for_input() {
        Level::V4 if length < LONG && !IS_BUILT_FOR_V4 => Level::V3,
        level => level,
    }
}

/// XXH32 has no code of its own for x86-64-v4.
#[cfg(target_arch = "x86_64")]
#[inline(always)]
fn level_to_v3() -> Level {
    if IS_BUILT_FOR_V3 || level() >= Level::V3 {
        Level::V3
    } else {
        Level::Base
    }
}

/// Returns the 64-bit hash of more than 240 bytes.
#[inline(always)]
pub fn long_64(secret: Secret<'_>, input: &[u8]) -> u64 {
    let secret = secret.bytes;
    let answer = call!(
        level_for_input(),
        xxh3_64_long(input.as_ptr(), input.len(), secret.as_ptr(), secret.len())
    );
    expect_done(answer.code);
    answer.value
}

/// Returns the 128-bit hash of more than 240 bytes.
#[inline(always)]
pub fn long_128(secret: Secret<'_>, input: &[u8]) -> Wide {
    let mut value = Wide { low: 0, high: 0 };
    let (start, length) = (secret.bytes.as_ptr(), secret.bytes.len());
    let code = call!(
        level_for_input(),
        xxh3_128_long(input.as_ptr(), input.len(), start, length, &mut value)
    );
    expect_done(code);
    value
}

/// Hashes a chunk after the bytes before.
#[inline(always)]
pub fn write(core: &mut CoreState, input: &[u8], secret: Secret<'_>) {
    let secret = secret.bytes;
    let (start, length) = (secret.as_ptr(), secret.len());
    let code = call!(
        level_for_piece(input.len()),
        xxh3_write(core, start, length, input.as_ptr(), input.len())
    );
    expect_done(code);
}

/// Minimum number of bytes that XXH32 takes by blocks.
pub const BYTES_FOR_BLOCKS: usize = 1024;

/// Adds the whole blocks of 128 bytes of the input, and returns the bytes after them.
#[inline(always)]
pub fn write_blocks_32<'d>(core: &mut Core, input: &'d [u8]) -> &'d [u8] {
    let (blocks, rest) = input.split_at(input.len() / 128 * 128);
    *core = after_stripes_32(core.v1, core.v2, core.v3, core.v4, blocks);
    rest
}

/// Returns the accumulators of XXH32 after whole stripes. They are passed as words: if the address of a stream's record left
/// its caller, the record would stay in memory.
#[cold]
#[inline(never)]
fn after_stripes_32(v1: u32, v2: u32, v3: u32, v4: u32, stripes: &[u8]) -> Core {
    let mut record = StateInMemory::of_record(SavedState {
        total_len: 0,
        seed: 0,
        core: Core { v1, v2, v3, v4 },
        buffer: [0; 16],
        buffer_usage: 0,
    });
    let code = call!(
        level_to_v3(),
        xxh32_write(&mut record, stripes.as_ptr(), stripes.len())
    );
    expect_done(code);
    Core {
        v1: record.v1,
        v2: record.v2,
        v3: record.v3,
        v4: record.v4,
    }
}

/// Stops if an export refused its arguments. The erased source passes none that it refuses.
#[inline(always)]
fn expect_done(code: u32) {
    if code != 0 {
        refused();
    }
}

#[cold]
#[inline(never)]
fn refused() -> ! {
    panic!("a kernel refused its arguments")
}
