// SPDX-License-Identifier: MIT
//! What is refused, the error texts, and what is returned in the errors.
#![cfg(all(feature = "alloc", feature = "xxhash3_64", feature = "xxhash3_128"))]

use twox_hash::xxhash3_64::{RawHasher, SecretBuffer};
use twox_hash::{XxHash3_128, XxHash3_64};

const SHORT: &str = "The secret must have at least 136 bytes";
const NOT_192: &str = "The secret must be exactly 192 bytes";

#[test]
fn one_shots_refuse_a_short_secret_where_they_need_it() {
    for length in [0, 1, 135] {
        let secret = vec![9; length];
        let refused = XxHash3_64::oneshot_with_secret(&secret, b"").unwrap_err();
        assert_eq!(refused.to_string(), SHORT);
        let refused = XxHash3_128::oneshot_with_secret(&secret, b"").unwrap_err();
        assert_eq!(
            format!("{refused} {refused:?}"),
            format!("{SHORT} OneshotWithSecretError(Error(()))")
        );
        assert!(XxHash3_64::oneshot_with_seed_and_secret(7, &secret, &[0; 240]).is_ok());
        assert!(XxHash3_64::oneshot_with_seed_and_secret(7, &secret, &[0; 241]).is_err());
        assert!(XxHash3_128::oneshot_with_seed_and_secret(7, &secret, &[0; 240]).is_ok());
        assert!(XxHash3_128::oneshot_with_seed_and_secret(7, &secret, &[0; 241]).is_err());
    }
}

#[test]
fn streams_hand_a_refused_secret_back() {
    let refused = XxHash3_128::with_seed_and_secret(7, [9; 135])
        .err()
        .unwrap();
    assert_eq!(
        format!("{refused} {refused:?}"),
        format!("{SHORT} SecretTooShortError")
    );
    assert_eq!(*refused.into_secret(), [9; 135]);
    let refused = SecretBuffer::new(7, [9; 135]).err().unwrap();
    assert_eq!(refused.into_secret(), [9; 135]);
    for length in [0, 191, 193] {
        let room = vec![9; length].into_boxed_slice();
        let refused = SecretBuffer::with_seed(7, room.clone()).err().unwrap();
        assert_eq!(
            format!("{refused} {refused:?}"),
            format!("{NOT_192} SecretWithSeedError")
        );
        assert_eq!(refused.into_secret(), room);
    }
}

struct Shrinking(std::cell::Cell<usize>);

impl AsRef<[u8]> for Shrinking {
    fn as_ref(&self) -> &[u8] {
        let length = self.0.get();
        self.0.set(length / 2);
        &[9; 192][..length]
    }
}

// SAFETY: none: this breaks the promise, to test that a stream detects it.
unsafe impl twox_hash::xxhash3_64::FixedBuffer for Shrinking {}

#[test]
#[should_panic(expected = "its secret's length has changed")]
fn a_buffer_that_breaks_its_promise_is_noticed() {
    use std::hash::Hasher as _;
    let buffer = SecretBuffer::new(7, Shrinking(192.into())).ok().unwrap();
    let mut hasher = RawHasher::new(buffer);
    hasher.write(b"some bytes");
    let _ = hasher.finish();
}

/// A secret whose clone has another length.
struct Recut(&'static [u8], usize);

impl AsRef<[u8]> for Recut {
    fn as_ref(&self) -> &[u8] {
        self.0
    }
}

impl Clone for Recut {
    fn clone(&self) -> Self {
        Recut(&self.0[..self.1], self.1)
    }
}

// SAFETY: none, as above.
unsafe impl twox_hash::xxhash3_64::FixedBuffer for Recut {}

#[test]
fn a_clone_of_another_length_is_refused_or_hashes_by_its_own_secret() {
    use std::hash::Hasher as _;
    static SECRET: [u8; 192] = [9; 192];
    for length in [0, 135, 136, 191] {
        let buffer = SecretBuffer::new(7, Recut(&SECRET, length)).ok().unwrap();
        let mut clone = RawHasher::new(buffer).clone();
        let value = std::panic::catch_unwind(move || {
            clone.write(&[1; 1000]);
            clone.finish()
        });
        let by_its_own = XxHash3_64::oneshot_with_seed_and_secret(7, &SECRET[..length], &[1; 1000]);
        assert_eq!(value.ok(), by_its_own.ok());
    }
}
