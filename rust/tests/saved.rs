// SPDX-License-Identifier: MIT
//! Saved hashers of XXH32 and XXH64: which texts are accepted, and which are refused.
#![cfg(all(feature = "serialize", feature = "xxhash32", feature = "xxhash64"))]

use std::hash::Hasher as _;
use twox_hash::{XxHash32, XxHash64};

fn text_of_64(total_len: u64, v1: u64, buffer_usage: usize) -> String {
    let buffer = vec!["0"; 32].join(",");
    format!(
        "{{\"total_len\":{total_len},\"seed\":0,\"core\":{{\"v1\":{v1},\"v2\":14029467366897019727,\"v3\":0,\
         \"v4\":7046029288634856825}},\"buffer\":[{buffer}],\"buffer_usage\":{buffer_usage}}}"
    )
}

// The initial accumulators of XXH64 for the seed 0, from the primes of its specification.
const V1: u64 = 0x9e37_79b1_85eb_ca87_u64.wrapping_add(0xc2b2_ae3d_27d4_eb4f);

#[test]
fn a_text_of_the_known_form_is_taken() {
    let hasher: XxHash64 = serde_json::from_str(&text_of_64(0, V1, 0)).unwrap();
    assert_eq!(hasher, XxHash64::with_seed(0));
    assert_eq!(
        serde_json::to_string(&hasher).unwrap(),
        text_of_64(0, V1, 0)
    );
}

#[test]
fn a_record_that_no_bytes_lead_to_is_refused() {
    let wrong = [
        (0, V1, 1),
        (1, V1, 0),
        (1, V1, 33),
        (31, V1, 32),
        (32, V1, 32),
        (0, V1 + 1, 0),
        (31, 0, 31),
        (u64::MAX, V1, 32),
        (5, V1, usize::MAX),
        (5, V1, (1 << 32) + 5),
    ];
    for (total_len, v1, buffer_usage) in wrong {
        let text = text_of_64(total_len, v1, buffer_usage);
        let refused = serde_json::from_str::<XxHash64>(&text).unwrap_err();
        assert!(
            refused
                .to_string()
                .starts_with("no bytes lead to this record of XXH64"),
            "{text}: {refused}"
        );
    }
    for right in [
        (1, V1, 1),
        (31, V1, 31),
        (32, 5, 0),
        (77, 5, 13),
        (u64::MAX, 5, 31),
        (u64::MAX, 5, 0),
    ] {
        assert!(
            serde_json::from_str::<XxHash64>(&text_of_64(right.0, right.1, right.2)).is_ok(),
            "{right:?}"
        );
    }
}

#[test]
fn a_hasher_goes_on_from_its_text_at_every_length() {
    let bytes: Vec<u8> = (0..=255).collect();
    for length in 0..bytes.len() {
        let (front, back) = bytes.split_at(length);
        let (mut by_32, mut by_64) = (XxHash32::with_seed(7), XxHash64::with_seed(7));
        by_32.write(front);
        by_64.write(front);
        let mut by_32: XxHash32 =
            serde_json::from_str(&serde_json::to_string(&by_32).unwrap()).unwrap();
        let mut by_64: XxHash64 =
            serde_json::from_str(&serde_json::to_string(&by_64).unwrap()).unwrap();
        by_32.write(back);
        by_64.write(back);
        assert_eq!(by_32.finish_32(), XxHash32::oneshot(7, &bytes));
        assert_eq!(by_64.finish(), XxHash64::oneshot(7, &bytes));
    }
}
