// SPDX-License-Identifier: MIT
//! XXH3 128-bit.

xxh3_hashers! {
    "XXH3 of 128 bits", XxHash3_128, xxhash3_128, u128, finish_128, ""
}

#[cfg(feature = "alloc")]
impl Hasher {
    /// Hashes a chunk after the bytes before.
    ///
    /// ```
    /// use twox_hash::XxHash3_128;
    ///
    /// let mut hasher = XxHash3_128::new();
    /// hasher.write(b"some ");
    /// hasher.write(b"bytes");
    /// assert_eq!(hasher.finish_128(), XxHash3_128::oneshot(b"some bytes"));
    /// ```
    #[inline]
    pub fn write(&mut self, input: &[u8]) {
        self.0.write(input);
    }

    /// Returns the hash of the bytes written so far. More can be written afterwards.
    #[inline]
    pub fn finish_128(&self) -> u128 {
        self.0.finish_128()
    }
}

impl<S: FixedBuffer> RawHasher<S> {
    /// Hashes a chunk after the bytes before.
    #[inline]
    pub fn write(&mut self, input: &[u8]) {
        self.0.write(input);
    }

    /// Returns the hash of the bytes written so far. More can be written afterwards.
    #[inline]
    pub fn finish_128(&self) -> u128 {
        self.0.finish_128()
    }
}
