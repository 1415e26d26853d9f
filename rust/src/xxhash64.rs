// SPDX-License-Identifier: MIT
//! XXH64.

plain_hash! {
    "XXH64", XxHash64, xxhash64, u64, 32,
    "let mut hasher = XxHash64::with_seed(1234);"
    "hasher.write(b\"some\");"
    "hasher.write(b\" bytes\");"
    "assert_eq!(hasher.finish(), XxHash64::oneshot(1234, b\"some bytes\"));"
}
