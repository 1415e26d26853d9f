// SPDX-License-Identifier: MIT
//! XXH3 64-bit.

use core::hash;

xxh3_hashers! {
    "XXH3 of 64 bits", XxHash3_64, xxhash3_64, u64, finish, "use std::hash::Hasher as _;"
}

#[cfg(feature = "alloc")]
impl hash::Hasher for Hasher {
    hasher_calls!(inline(always));
}

impl<S: FixedBuffer> hash::Hasher for RawHasher<S> {
    hasher_calls!(inline);
}
