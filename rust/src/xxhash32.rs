// SPDX-License-Identifier: MIT
//! XXH32.

plain_hash! {
    "XXH32", XxHash32, xxhash32, u32, 16,
    "let mut hasher = XxHash32::with_seed(1234);"
    "hasher.write(b\"some\");"
    "hasher.write(b\" bytes\");"
    "assert_eq!(hasher.finish_32(), XxHash32::oneshot(1234, b\"some bytes\"));"
}

impl Hasher {
    /// Returns the hash of the bytes written so far. More can be written afterwards. [`finish`](hash::Hasher::finish)
    /// returns the same number as 64 bits, with the high half 0.
    ///
    /// ```
    /// let hasher = twox_hash::XxHash32::with_seed(0);
    /// assert_eq!(hasher.finish_32(), 0x02cc_5d05);
    /// ```
    #[must_use]
    #[inline]
    pub fn finish_32(&self) -> u32 {
        self.0.finish_32()
    }

    /// Returns the low 32 bits of [`total_len`](Self::total_len), which the hash uses.
    ///
    /// ```
    /// assert_eq!(twox_hash::XxHash32::with_seed(7).total_len_32(), 0);
    /// ```
    pub const fn total_len_32(&self) -> u32 {
        self.total_len() as u32
    }
}
