// SPDX-License-Identifier: MIT
//! XXH3 of 1,000 bytes with seeds and secrets. The values are those of libxxhash 0.8.1.
#![cfg(all(feature = "alloc", feature = "xxhash3_64", feature = "xxhash3_128"))]

use std::hash::Hasher as _;

use twox_hash::{XxHash3_128, XxHash3_64};

/// Returns 1,000 bytes: 0 to 250, repeated.
fn input() -> Vec<u8> {
    (0..1000).map(|at| (at % 251) as u8).collect()
}

/// Returns a secret of this length.
fn secret(length: usize) -> Vec<u8> {
    (0..length).map(|at| (at * 7 + 3) as u8).collect()
}

/// Each seed with the values of both widths.
const BY_SEED: [(u64, u64, u128); 3] = [
    (
        0,
        0x33ef_703f_b2b2_0ed1,
        0x18bf_41bc_8229_e277_33ef_703f_b2b2_0ed1,
    ),
    (
        1234,
        0x1a9b_b611_4520_9c40,
        0xa77b_8dbd_2338_3ab6_1a9b_b611_4520_9c40,
    ),
    (
        u64::MAX,
        0x0b11_f8e1_9143_a7f5,
        0x615c_4c1b_6684_f49c_0b11_f8e1_9143_a7f5,
    ),
];

/// Each length of a secret with the values of both widths.
const BY_SECRET: [(usize, u64, u128); 4] = [
    (
        136,
        0x2d55_09a5_3f5d_f83e,
        0x9ceb_e093_a4f1_9a52_2d55_09a5_3f5d_f83e,
    ),
    (
        192,
        0x5d63_581e_98e1_e10f,
        0xdaa4_3079_63f8_b47a_5d63_581e_98e1_e10f,
    ),
    (
        200,
        0x913a_1f80_17f8_3aae,
        0x8bbd_3f71_11b6_6f1a_913a_1f80_17f8_3aae,
    ),
    (
        300,
        0xb119_eacc_984a_961b,
        0x8816_81f4_5850_7c02_b119_eacc_984a_961b,
    ),
];

/// Lengths of the first chunk.
const CUTS: [usize; 6] = [0, 1, 64, 241, 512, 1000];

#[test]
fn seeded_values_are_those_of_the_reference() {
    let input = input();
    for (seed, of_64, of_128) in BY_SEED {
        assert_eq!(XxHash3_64::oneshot_with_seed(seed, &input), of_64);
        assert_eq!(XxHash3_128::oneshot_with_seed(seed, &input), of_128);
        for cut in CUTS {
            let (first, rest) = input.split_at(cut);
            let mut stream = XxHash3_64::with_seed(seed);
            stream.write(first);
            stream.write(rest);
            assert_eq!(stream.finish(), of_64, "seed {seed}, cut at {cut}");
            let mut stream = XxHash3_128::with_seed(seed);
            stream.write(first);
            stream.write(rest);
            assert_eq!(stream.finish_128(), of_128, "seed {seed}, cut at {cut}");
        }
    }
}

#[test]
fn values_by_a_secret_are_those_of_the_reference() {
    let input = input();
    for (length, of_64, of_128) in BY_SECRET {
        let secret = secret(length);
        assert_eq!(
            XxHash3_64::oneshot_with_secret(&secret, &input).unwrap(),
            of_64
        );
        assert_eq!(
            XxHash3_128::oneshot_with_secret(&secret, &input).unwrap(),
            of_128
        );
        // Above 240 bytes the seed changes nothing.
        for cut in CUTS {
            let (first, rest) = input.split_at(cut);
            let mut stream = XxHash3_64::with_seed_and_secret(9, &secret[..]).unwrap();
            stream.write(first);
            stream.write(rest);
            assert_eq!(stream.finish(), of_64, "{length} bytes, cut at {cut}");
            let mut stream = XxHash3_128::with_seed_and_secret(9, &secret[..]).unwrap();
            stream.write(first);
            stream.write(rest);
            assert_eq!(stream.finish_128(), of_128, "{length} bytes, cut at {cut}");
        }
    }
}
