// SPDX-License-Identifier: MIT
//! Properties of the types: bounds, sizes, constants, and hashers in maps.
#![cfg(all(
    feature = "std",
    feature = "random",
    feature = "xxhash32",
    feature = "xxhash64",
    feature = "xxhash3_64",
    feature = "xxhash3_128"
))]

use std::collections::HashMap;
use std::fmt::Debug;
use std::hash::{BuildHasher, BuildHasherDefault, Hasher};
use std::mem::size_of;
use std::panic::{RefUnwindSafe, UnwindSafe};

use twox_hash::{xxhash32, xxhash3_128, xxhash3_64, xxhash64};
use twox_hash::{XxHash32, XxHash3_128, XxHash3_64, XxHash64};

fn moves_between_threads<T: Send + Sync + Unpin + UnwindSafe + RefUnwindSafe>() {}
fn clones<T: Clone>() {}
fn is_error<T: std::error::Error>() {}
fn is_plain_hasher<T: Hasher + Clone + Default + PartialEq + Debug>() {}
fn builds<T: BuildHasher + Clone + Default>() {}

#[test]
fn types_have_the_impls_of_the_original() {
    is_plain_hasher::<XxHash32>();
    is_plain_hasher::<XxHash64>();
    builds::<xxhash32::RandomState>();
    builds::<xxhash64::RandomState>();
    clones::<xxhash32::State>();
    clones::<XxHash3_128>();
    clones::<xxhash3_64::SecretBuffer<Box<[u8]>>>();
    clones::<xxhash3_128::RawHasher<[u8; 136]>>();
    is_error::<xxhash3_64::OneshotWithSecretError>();
    is_error::<xxhash3_64::SecretTooShortError<Box<[u8]>>>();
    is_error::<xxhash3_128::SecretWithSeedError<[u8; 3]>>();
    moves_between_threads::<XxHash32>();
    moves_between_threads::<XxHash64>();
    moves_between_threads::<XxHash3_64>();
    moves_between_threads::<XxHash3_128>();
    moves_between_threads::<xxhash3_64::RawHasher<&'static [u8; 192]>>();
    moves_between_threads::<xxhash3_128::RawHasher<Box<[u8]>>>();
    moves_between_threads::<xxhash3_64::SecretBuffer<Box<[u8]>>>();
    moves_between_threads::<xxhash3_64::OneshotWithSecretError>();
    moves_between_threads::<xxhash3_64::SecretTooShortError<Box<[u8]>>>();
    moves_between_threads::<xxhash3_128::SecretWithSeedError<[u8; 3]>>();
    moves_between_threads::<xxhash32::State>();
    moves_between_threads::<xxhash64::State>();
    moves_between_threads::<xxhash32::RandomState>();
    moves_between_threads::<xxhash64::RandomState>();
}

#[test]
fn sizes_are_those_of_the_page() {
    assert_eq!(size_of::<XxHash32>(), 48);
    assert_eq!(size_of::<XxHash64>(), 88);
    assert_eq!(size_of::<XxHash3_64>(), 784);
    assert_eq!(size_of::<XxHash3_128>(), 784);
    assert_eq!(size_of::<xxhash3_64::RawHasher<&[u8; 192]>>(), 632);
    assert_eq!(size_of::<xxhash3_64::SecretBuffer<&[u8; 192]>>(), 24);
}

#[test]
fn constants_hold_hashers() {
    static PLAIN: XxHash64 = XxHash64::with_seed(7);
    const SECRET: xxhash3_64::SecretBuffer<&[u8; 192]> = xxhash3_64::SecretBuffer::default();
    const SEEDS: (u32, u64) = (XxHash32::with_seed(7).seed(), XxHash64::with_seed(8).seed());
    const LENGTHS: (u64, u32, u64) = (
        XxHash32::with_seed(7).total_len(),
        XxHash32::with_seed(7).total_len_32(),
        XxHash64::with_seed(7).total_len(),
    );
    assert_eq!((SEEDS, LENGTHS), ((7, 8), (0, 0, 0)));
    assert_eq!(PLAIN.finish(), XxHash64::oneshot(7, b""));
    assert_eq!(
        xxhash3_64::RawHasher::new(SECRET).finish(),
        XxHash3_64::oneshot(b"")
    );
    assert_eq!(
        (
            xxhash3_64::SECRET_MINIMUM_LENGTH,
            xxhash3_128::DEFAULT_SECRET_LENGTH
        ),
        (136, 192)
    );
}

fn finds_its_keys<S: BuildHasher + Default>() {
    let mut map: HashMap<String, usize, S> = HashMap::default();
    for key in 0..1000 {
        map.insert(key.to_string(), key);
    }
    for key in 0..1000 {
        assert_eq!(map[&key.to_string()], key);
    }
}

#[test]
fn maps_find_their_keys() {
    finds_its_keys::<BuildHasherDefault<XxHash32>>();
    finds_its_keys::<BuildHasherDefault<XxHash64>>();
    finds_its_keys::<BuildHasherDefault<XxHash3_64>>();
    finds_its_keys::<xxhash32::RandomState>();
    finds_its_keys::<xxhash64::RandomState>();
}

#[test]
fn two_random_states_differ() {
    let hash = |state: xxhash64::RandomState| state.build_hasher().seed();
    assert_ne!(hash(Default::default()), hash(Default::default()));
}
