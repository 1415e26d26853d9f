// SPDX-License-Identifier: MIT
//! Whole words, such as a map's keys: their bytes are hashed, first, later and saved.
#![cfg(all(
    feature = "std",
    feature = "random",
    feature = "xxhash32",
    feature = "xxhash64",
    feature = "xxhash3_64"
))]

use std::hash::{BuildHasher, Hasher};

use twox_hash::xxhash3_64::{RawHasher, SecretBuffer};
use twox_hash::{xxhash32, xxhash64, XxHash32, XxHash3_64, XxHash64};

const WORDS: [u64; 6] = [
    0,
    1,
    u64::MAX,
    1 << 63,
    0x0123_4567_89ab_cdef,
    0x8000_0000_ffff_ffff,
];

/// The hash of these words, and of their bytes: the first by `write_u64`, and the others by another call of that width.
fn by_words_and_bytes<H: Hasher>(make: impl Fn() -> H, words: &[u64]) -> (u64, u64) {
    let (mut by_words, mut by_bytes) = (make(), make());
    for (i, &word) in words.iter().enumerate() {
        match i % 4 {
            0 => by_words.write_u64(word),
            1 => by_words.write_usize(word as usize),
            2 => by_words.write_i64(word as i64),
            _ => by_words.write_isize(word as isize),
        }
        by_bytes.write(&word.to_ne_bytes());
    }
    (by_words.finish(), by_bytes.finish())
}

#[test]
fn words_are_hashed_as_their_bytes() {
    for start in 0..WORDS.len() {
        for seed in [0, 7, u64::MAX] {
            let words = &WORDS[start..];
            let first = words[0].to_ne_bytes();
            assert_eq!(
                XxHash64::oneshot(seed, &first),
                xxhash64::State::with_seed(seed).hash_one(words[0])
            );
            for count in 1..=words.len() {
                let words = &words[..count];
                let pairs = [
                    by_words_and_bytes(|| XxHash32::with_seed(seed as u32), words),
                    by_words_and_bytes(|| XxHash64::with_seed(seed), words),
                    by_words_and_bytes(XxHash3_64::new, words),
                    by_words_and_bytes(|| XxHash3_64::with_seed(seed), words),
                    by_words_and_bytes(
                        || RawHasher::new(SecretBuffer::new(seed, [9; 140]).unwrap()),
                        words,
                    ),
                ];
                for (by_words, by_bytes) in pairs {
                    assert_eq!(by_words, by_bytes, "seed {seed}, words {words:x?}");
                }
            }
        }
    }
}

#[test]
fn one_word_is_hashed_as_at_once() {
    for word in WORDS {
        let bytes = word.to_ne_bytes();
        for seed in [0, 7, u64::MAX] {
            let short = xxhash32::State::with_seed(seed as u32);
            assert_eq!(
                short.hash_one(word),
                XxHash32::oneshot(seed as u32, &bytes).into()
            );
            assert_eq!(
                xxhash64::State::with_seed(seed).hash_one(word),
                XxHash64::oneshot(seed, &bytes)
            );
            let mut hasher = XxHash3_64::with_seed(seed);
            hasher.write_u64(word);
            assert_eq!(hasher.finish(), XxHash3_64::oneshot_with_seed(seed, &bytes));
        }
    }
}

#[test]
fn a_word_leads_to_the_record_of_its_bytes() {
    for word in WORDS {
        let (mut by_word, mut by_bytes) = (XxHash64::with_seed(7), XxHash64::with_seed(7));
        by_word.write_u64(word);
        by_bytes.write(&word.to_ne_bytes());
        assert_eq!(by_word, by_bytes);
        let (mut by_word, mut by_bytes) = (XxHash32::with_seed(7), XxHash32::with_seed(7));
        by_word.write_usize(word as usize);
        by_bytes.write(&word.to_ne_bytes());
        assert_eq!(by_word, by_bytes);
    }
}
