//! The crate xxhash-rust as a peer.
use std::slice::from_raw_parts;
use xxhash_rust::{xxh3, xxh32, xxh64};

/// Size of the input's buffer, with which every peer compares a length.
const ROOM: usize = 64 << 20;

unsafe fn bytes<'a>(input: *const u8, length: usize) -> &'a [u8] {
    from_raw_parts(input, length.min(ROOM))
}

/// A value of 128 bits, as C has it.
#[repr(C)]
pub struct Halves {
    low: u64,
    high: u64,
}

fn halves(value: u128) -> Halves {
    Halves { low: value as u64, high: (value >> 64) as u64 }
}

#[no_mangle]
pub unsafe extern "C" fn rust_xxh32(seed: u32, input: *const u8, length: usize) -> u32 {
    xxh32::xxh32(bytes(input, length), seed)
}

#[no_mangle]
pub unsafe extern "C" fn rust_xxh64(seed: u64, input: *const u8, length: usize) -> u64 {
    xxh64::xxh64(bytes(input, length), seed)
}

#[no_mangle]
pub unsafe extern "C" fn rust_xxh3_64(input: *const u8, length: usize) -> u64 {
    xxh3::xxh3_64(bytes(input, length))
}

#[no_mangle]
pub unsafe extern "C" fn rust_xxh3_64_seeded(seed: u64, input: *const u8, length: usize) -> u64 {
    xxh3::xxh3_64_with_seed(bytes(input, length), seed)
}

#[no_mangle]
pub unsafe extern "C" fn rust_xxh3_64_keyed(
    secret: *const u8,
    secret_length: usize,
    input: *const u8,
    length: usize,
) -> u64 {
    xxh3::xxh3_64_with_secret(bytes(input, length), bytes(secret, secret_length))
}

#[no_mangle]
pub unsafe extern "C" fn rust_xxh3_128(input: *const u8, length: usize) -> Halves {
    halves(xxh3::xxh3_128(bytes(input, length)))
}

#[no_mangle]
pub unsafe extern "C" fn rust_xxh3_128_seeded(seed: u64, input: *const u8, length: usize) -> Halves {
    halves(xxh3::xxh3_128_with_seed(bytes(input, length), seed))
}

// The calls that hash a chunk, none of them inlined.
#[inline(never)]
fn update_32(hasher: &mut xxh32::Xxh32, part: &[u8]) {
    hasher.update(part)
}

#[inline(never)]
fn update_64(hasher: &mut xxh64::Xxh64, part: &[u8]) {
    hasher.update(part)
}

#[inline(never)]
fn update_3(hasher: &mut xxh3::Xxh3, part: &[u8]) {
    hasher.update(part)
}

/// A stream that hashes the input in chunks.
macro_rules! stream {
    ($name:ident, $result:ty, $new:expr, $update:expr, $digest:expr) => {
        #[no_mangle]
        pub unsafe extern "C" fn $name(input: *const u8, length: usize, piece: usize) -> $result {
            let mut hasher = $new;
            bytes(input, length).chunks(piece).for_each(|part| $update(&mut hasher, part));
            $digest(&hasher)
        }
    };
}

#[cfg(feature = "twox_hash")]
mod of_twox_hash;

fn digest_128(hasher: &xxh3::Xxh3) -> Halves {
    halves(hasher.digest128())
}

stream!(rust_xxh32_stream, u32, xxh32::Xxh32::new(0), xxh32::Xxh32::update, xxh32::Xxh32::digest);
stream!(rust_xxh32_stream_called, u32, xxh32::Xxh32::new(0), update_32, xxh32::Xxh32::digest);
stream!(rust_xxh64_stream, u64, xxh64::Xxh64::new(0), xxh64::Xxh64::update, xxh64::Xxh64::digest);
stream!(rust_xxh64_stream_called, u64, xxh64::Xxh64::new(0), update_64, xxh64::Xxh64::digest);
stream!(rust_xxh3_64_stream, u64, xxh3::Xxh3::new(), xxh3::Xxh3::update, xxh3::Xxh3::digest);
stream!(rust_xxh3_64_stream_called, u64, xxh3::Xxh3::new(), update_3, xxh3::Xxh3::digest);
stream!(rust_xxh3_128_stream, Halves, xxh3::Xxh3::new(), xxh3::Xxh3::update, digest_128);
stream!(rust_xxh3_128_stream_called, Halves, xxh3::Xxh3::new(), update_3, digest_128);
