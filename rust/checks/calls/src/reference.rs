//! The calls of `under_test` by the C library and by `xxhash-rust`: their one-shots, however the bytes come in.

use crate::case::{Case, Outcome};

mod ffi {
    #[repr(C)]
    pub struct Hash128 {
        pub low: u64,
        pub high: u64,
    }

    #[link(name = "xxhash")]
    extern "C" {
        pub fn XXH32(input: *const u8, length: usize, seed: u32) -> u32;
        pub fn XXH64(input: *const u8, length: usize, seed: u64) -> u64;
        pub fn XXH3_64bits(input: *const u8, length: usize) -> u64;
        pub fn XXH3_64bits_withSeed(input: *const u8, length: usize, seed: u64) -> u64;
        pub fn XXH3_64bits_withSecret(
            input: *const u8,
            length: usize,
            secret: *const u8,
            size: usize,
        ) -> u64;
        pub fn XXH3_128bits(input: *const u8, length: usize) -> Hash128;
        pub fn XXH3_128bits_withSeed(input: *const u8, length: usize, seed: u64) -> Hash128;
        pub fn XXH3_128bits_withSecret(
            input: *const u8,
            length: usize,
            secret: *const u8,
            size: usize,
        ) -> Hash128;
    }
}

/// The hashes of an input, by a peer.
struct Peer<'a> {
    xxh32: u128,
    xxh64: u128,
    of_64_bits: Width<'a>,
    of_128_bits: Width<'a>,
}

/// XXH3 of a width: with the default secret, with the seed, and with the secret, which has enough bytes.
struct Width<'a> {
    default: u128,
    seeded: u128,
    keyed: &'a dyn Fn() -> u128,
}

/// The results of the C library.
pub fn c_library(case: &Case<'_>) -> Vec<(&'static str, Outcome)> {
    let Case {
        seed,
        secret,
        input,
        ..
    } = case;
    let (at, length, key, size) = (input.as_ptr(), input.len(), secret.as_ptr(), secret.len());
    let wide = |hash: ffi::Hash128| u128::from(hash.high) << 64 | u128::from(hash.low);
    // SAFETY: each address and length is of one slice, and a secret is passed only with enough bytes.
    unsafe {
        expected(
            case,
            Peer {
                xxh32: ffi::XXH32(at, length, *seed as u32).into(),
                xxh64: ffi::XXH64(at, length, *seed).into(),
                of_64_bits: Width {
                    default: ffi::XXH3_64bits(at, length).into(),
                    seeded: ffi::XXH3_64bits_withSeed(at, length, *seed).into(),
                    keyed: &|| ffi::XXH3_64bits_withSecret(at, length, key, size).into(),
                },
                of_128_bits: Width {
                    default: wide(ffi::XXH3_128bits(at, length)),
                    seeded: wide(ffi::XXH3_128bits_withSeed(at, length, *seed)),
                    keyed: &|| wide(ffi::XXH3_128bits_withSecret(at, length, key, size)),
                },
            },
        )
    }
}

/// The results of `xxhash-rust`.
pub fn xxhash_rust(case: &Case<'_>) -> Vec<(&'static str, Outcome)> {
    use xxhash_rust::{xxh3, xxh32::xxh32, xxh64::xxh64};
    let Case {
        seed,
        secret,
        input,
        ..
    } = case;
    expected(
        case,
        Peer {
            xxh32: xxh32(input, *seed as u32).into(),
            xxh64: xxh64(input, *seed).into(),
            of_64_bits: Width {
                default: xxh3::xxh3_64(input).into(),
                seeded: xxh3::xxh3_64_with_seed(input, *seed).into(),
                keyed: &|| xxh3::xxh3_64_with_secret(input, secret).into(),
            },
            of_128_bits: Width {
                default: xxh3::xxh3_128(input),
                seeded: xxh3::xxh3_128_with_seed(input, *seed),
                keyed: &|| xxh3::xxh3_128_with_secret(input, secret),
            },
        },
    )
}

// The expected result of each call, from a peer's values. A seed and a secret give the seed's value up to 240 bytes,
// and the secret's above; a stream refuses a short secret at every length, a one-shot only if it needs it.
fn expected(case: &Case<'_>, peer: Peer<'_>) -> Vec<(&'static str, Outcome)> {
    use Outcome::{Refused, Value};
    let is_long = case.input.len() > 240;
    let is_short_secret = case.secret.len() < 136;
    let refused = || Refused("The secret must have at least 136 bytes".to_owned());
    let keyed = |width: &Width<'_>| {
        if is_short_secret {
            refused()
        } else {
            Value((width.keyed)())
        }
    };
    let both = |width: &Width<'_>| {
        if is_long {
            keyed(width)
        } else {
            Value(width.seeded)
        }
    };
    let streamed = |width: &Width<'_>| {
        if is_short_secret {
            refused()
        } else {
            both(width)
        }
    };
    let mut outcomes = vec![
        ("XXH32", Value(peer.xxh32)),
        ("XXH32 in pieces", Value(peer.xxh32)),
        ("XXH32 as a hasher", Value(peer.xxh32)),
        ("XXH64", Value(peer.xxh64)),
        ("XXH64 in pieces", Value(peer.xxh64)),
    ];
    let of_64 = &peer.of_64_bits;
    outcomes.extend([
        ("XXH3 64", Value(of_64.default)),
        ("XXH3 64, seed", Value(of_64.seeded)),
        ("XXH3 64, secret", keyed(of_64)),
        ("XXH3 64, seed and secret", both(of_64)),
        ("XXH3 64 in pieces", Value(of_64.default)),
        ("XXH3 64 in pieces, seed", Value(of_64.seeded)),
        ("XXH3 64 in pieces, seed and secret", streamed(of_64)),
        ("XXH3 64, raw", Value(of_64.default)),
        ("XXH3 64, raw, seed", Value(of_64.seeded)),
    ]);
    let of_128 = &peer.of_128_bits;
    outcomes.extend([
        ("XXH3 128", Value(of_128.default)),
        ("XXH3 128, seed", Value(of_128.seeded)),
        ("XXH3 128, secret", keyed(of_128)),
        ("XXH3 128, seed and secret", both(of_128)),
        ("XXH3 128 in pieces", Value(of_128.default)),
        ("XXH3 128 in pieces, seed", Value(of_128.seeded)),
        ("XXH3 128 in pieces, seed and secret", streamed(of_128)),
        ("XXH3 128, raw", Value(of_128.default)),
        ("XXH3 128, raw, seed", Value(of_128.seeded)),
    ]);
    outcomes
}
