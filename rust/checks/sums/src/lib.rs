// SPDX-License-Identifier: MIT
//! One number from 18,802 hashes, which must be the same on every target: one-shots of 0 to 1,099 bytes and of some
//! more by each hash, with seeds and secrets, and streams that are split anywhere.
#![no_std]

use core::hash::Hasher as _;
use twox_hash::{xxhash3_128, xxhash3_64, XxHash32, XxHash3_128, XxHash3_64, XxHash64};

const LENGTHS: usize = 1100;
const LONGER: [usize; 6] = [2048, 2049, 4096, 5000, 8191, 9000];

struct Random(u64);

impl Random {
    fn next(&mut self) -> u64 {
        self.0 ^= self.0 << 13;
        self.0 ^= self.0 >> 7;
        self.0 ^= self.0 << 17;
        self.0
    }
}

struct Sum(u64);

impl Sum {
    fn add(&mut self, hash: u64) {
        self.0 = (self.0 ^ hash)
            .wrapping_mul(0x0000_0100_0000_01b3)
            .rotate_left(17);
    }

    fn add_wide(&mut self, hash: u128) {
        self.add(hash as u64);
        self.add((hash >> 64) as u64);
    }
}

#[no_mangle]
pub extern "C" fn sum_of_hashes() -> u64 {
    let mut random = Random(0x9e37_79b9_7f4a_7c15);
    let mut bytes = [0; 9000];
    for byte in &mut bytes {
        *byte = random.next() as u8;
    }
    let mut sum = Sum(0xcbf2_9ce4_8422_2325);
    for length in (0..LENGTHS).chain(LONGER) {
        let seed = match length % 3 {
            0 => 0,
            1 => u64::MAX,
            _ => random.next(),
        };
        let secret = &bytes[length % 100..][..136 + length % 200];
        add_oneshots(&mut sum, seed, secret, &bytes[..length]);
        add_streams(&mut sum, &mut random, seed, &bytes[..length]);
    }
    sum.0
}

fn add_oneshots(sum: &mut Sum, seed: u64, secret: &[u8], input: &[u8]) {
    sum.add(XxHash32::oneshot(seed as u32, input).into());
    sum.add(XxHash64::oneshot(seed, input));
    sum.add(XxHash3_64::oneshot(input));
    sum.add(XxHash3_64::oneshot_with_seed(seed, input));
    sum.add(XxHash3_64::oneshot_with_secret(secret, input).unwrap_or(0));
    sum.add(XxHash3_64::oneshot_with_seed_and_secret(seed, secret, input).unwrap_or(0));
    sum.add_wide(XxHash3_128::oneshot(input));
    sum.add_wide(XxHash3_128::oneshot_with_seed(seed, input));
    sum.add_wide(XxHash3_128::oneshot_with_secret(secret, input).unwrap_or(0));
}

fn add_streams(sum: &mut Sum, random: &mut Random, seed: u64, input: &[u8]) {
    let Ok(derived) = xxhash3_64::SecretBuffer::with_seed(seed, [0; 192]) else {
        return;
    };
    let mut plain_32 = XxHash32::with_seed(seed as u32);
    let mut plain_64 = XxHash64::with_seed(seed);
    let mut of_64 = xxhash3_64::RawHasher::new(derived);
    let mut of_128 = xxhash3_128::RawHasher::new(xxhash3_128::SecretBuffer::default());
    let mut rest = input;
    while !rest.is_empty() {
        let most = if input.len() % 2 == 0 { 700 } else { 9 };
        let (piece, after) =
            rest.split_at((1 + random.next() as u16 as usize % most).min(rest.len()));
        plain_32.write(piece);
        plain_64.write(piece);
        of_64.write(piece);
        of_128.write(piece);
        rest = after;
    }
    sum.add(plain_32.finish());
    sum.add(plain_64.finish());
    sum.add(of_64.finish());
    sum.add_wide(of_128.finish_128());
}

#[cfg(not(test))]
#[panic_handler]
fn panic(_: &core::panic::PanicInfo<'_>) -> ! {
    loop {}
}
