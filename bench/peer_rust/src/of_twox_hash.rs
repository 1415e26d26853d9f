//! The crate twox-hash as a peer, with its own choice of AVX2 at run time.
use crate::{bytes, halves, Halves};
use std::hash::Hasher;
use twox_hash::{XxHash32, XxHash3_128, XxHash3_64, XxHash64};

#[no_mangle]
pub unsafe extern "C" fn twox_hash_xxh32(seed: u32, input: *const u8, length: usize) -> u32 {
    XxHash32::oneshot(seed, bytes(input, length))
}

#[no_mangle]
pub unsafe extern "C" fn twox_hash_xxh64(seed: u64, input: *const u8, length: usize) -> u64 {
    XxHash64::oneshot(seed, bytes(input, length))
}

#[no_mangle]
pub unsafe extern "C" fn twox_hash_xxh3_64(input: *const u8, length: usize) -> u64 {
    XxHash3_64::oneshot(bytes(input, length))
}

#[no_mangle]
pub unsafe extern "C" fn twox_hash_xxh3_64_seeded(seed: u64, input: *const u8, length: usize) -> u64 {
    XxHash3_64::oneshot_with_seed(seed, bytes(input, length))
}

#[no_mangle]
pub unsafe extern "C" fn twox_hash_xxh3_64_keyed(
    secret: *const u8,
    secret_length: usize,
    input: *const u8,
    length: usize,
) -> u64 {
    XxHash3_64::oneshot_with_secret(bytes(secret, secret_length), bytes(input, length)).unwrap_or(0)
}

#[no_mangle]
pub unsafe extern "C" fn twox_hash_xxh3_128(input: *const u8, length: usize) -> Halves {
    halves(XxHash3_128::oneshot(bytes(input, length)))
}

#[no_mangle]
pub unsafe extern "C" fn twox_hash_xxh3_128_seeded(seed: u64, input: *const u8, length: usize) -> Halves {
    halves(XxHash3_128::oneshot_with_seed(seed, bytes(input, length)))
}

// The calls that hash a chunk, none of them inlined.
#[inline(never)]
fn write_32(hasher: &mut XxHash32, part: &[u8]) {
    hasher.write(part)
}

#[inline(never)]
fn write_64(hasher: &mut XxHash64, part: &[u8]) {
    hasher.write(part)
}

#[inline(never)]
fn write_3_64(hasher: &mut XxHash3_64, part: &[u8]) {
    hasher.write(part)
}

#[inline(never)]
fn write_3_128(hasher: &mut XxHash3_128, part: &[u8]) {
    hasher.write(part)
}

fn finish_128(hasher: &XxHash3_128) -> Halves {
    halves(hasher.finish_128())
}

stream!(twox_hash_xxh32_stream, u32, XxHash32::with_seed(0), XxHash32::write, XxHash32::finish_32);
stream!(twox_hash_xxh32_stream_called, u32, XxHash32::with_seed(0), write_32, XxHash32::finish_32);
stream!(twox_hash_xxh64_stream, u64, XxHash64::with_seed(0), XxHash64::write, XxHash64::finish);
stream!(twox_hash_xxh64_stream_called, u64, XxHash64::with_seed(0), write_64, XxHash64::finish);
stream!(twox_hash_xxh3_64_stream, u64, XxHash3_64::new(), XxHash3_64::write, XxHash3_64::finish);
stream!(twox_hash_xxh3_64_stream_called, u64, XxHash3_64::new(), write_3_64, XxHash3_64::finish);
stream!(twox_hash_xxh3_128_stream, Halves, XxHash3_128::new(), XxHash3_128::write, finish_128);
stream!(twox_hash_xxh3_128_stream_called, Halves, XxHash3_128::new(), write_3_128, finish_128);
