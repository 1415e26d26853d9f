// SPDX-License-Identifier: MIT
//! One value of each hash that the features include, also without `std`. The values are those of libxxhash 0.8.1.
#![cfg(any(
    feature = "xxhash32",
    feature = "xxhash64",
    feature = "xxhash3_64",
    feature = "xxhash3_128"
))]

const SEED: u32 = 1234;

/// Returns 1,000 bytes: 0 to 250, repeated.
fn input() -> [u8; 1000] {
    std::array::from_fn(|at| (at % 251) as u8)
}

/// Tests the one-shot call and streams of two chunks.
#[cfg(any(feature = "xxhash32", feature = "xxhash64"))]
macro_rules! agrees {
    ($hasher:ident, $seed:expr, $finish:ident, $value:expr) => {
        use std::hash::Hasher as _;
        let input = input();
        assert_eq!(twox_hash::$hasher::oneshot($seed, &input), $value);
        for cut in [0, 1, 15, 16, 31, 32, 33, 999, 1000] {
            let mut stream = twox_hash::$hasher::with_seed($seed);
            stream.write(&input[..cut]);
            stream.write(&input[cut..]);
            assert_eq!(stream.$finish(), $value, "cut at {cut}");
        }
    };
}

#[cfg(feature = "xxhash32")]
#[test]
fn xxhash32_has_the_value_of_the_reference() {
    agrees!(XxHash32, SEED, finish_32, 0x08ff_cd41);
}

#[cfg(feature = "xxhash64")]
#[test]
fn xxhash64_has_the_value_of_the_reference() {
    agrees!(XxHash64, SEED.into(), finish, 0xfddd_3c70_a026_3ccb);
}

#[cfg(feature = "xxhash3_64")]
#[test]
fn xxhash3_64_has_the_value_of_the_reference() {
    let value = twox_hash::XxHash3_64::oneshot_with_seed(SEED.into(), &input());
    assert_eq!(value, 0x1a9b_b611_4520_9c40);
}

#[cfg(feature = "xxhash3_128")]
#[test]
fn xxhash3_128_has_the_value_of_the_reference() {
    let value = twox_hash::XxHash3_128::oneshot_with_seed(SEED.into(), &input());
    assert_eq!(value, 0xa77b_8dbd_2338_3ab6_1a9b_b611_4520_9c40);
}

/// Tests, when it is compiled, that each hasher can be cloned, also the XXH3 ones without `alloc`.
#[test]
fn hashers_are_clone() {
    fn cloned<T: Clone>(hasher: &T) -> T {
        hasher.clone()
    }
    #[cfg(feature = "xxhash32")]
    let _ = cloned::<twox_hash::XxHash32>;
    #[cfg(feature = "xxhash64")]
    let _ = cloned::<twox_hash::XxHash64>;
    #[cfg(feature = "xxhash3_64")]
    let _ = cloned::<twox_hash::XxHash3_64>;
    #[cfg(feature = "xxhash3_128")]
    let _ = cloned::<twox_hash::XxHash3_128>;
}
