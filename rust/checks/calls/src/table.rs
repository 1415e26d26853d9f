//! The oracle's table through the crate: requests to the reference library and its results.

use std::hash::Hasher as _;

use twox_hash::{XxHash32, XxHash3_128, XxHash3_64, XxHash64};

/// A test case: the hash's name, a seed, a secret, the input, and the result.
struct Row<'a> {
    hash: &'a str,
    seed: Option<u64>,
    secret: Option<Vec<u8>>,
    input: Vec<u8>,
    answer: u128,
}

/// Compares each test case with a one-shot and, if the crate has one for it, a stream. Returns their number, or the
/// first line that differs.
pub fn agrees(table: &str) -> Result<usize, String> {
    let mut compared = 0;
    for line in table.lines().filter(|line| !line.starts_with('#')) {
        let row = read(line).ok_or_else(|| format!("no row: {line}"))?;
        for answer in answers(&row).ok_or_else(|| format!("no such call: {line}"))? {
            if answer != row.answer {
                return Err(format!("{answer:x}, and the table {line}"));
            }
            compared += 1;
        }
    }
    Ok(compared)
}

fn read(line: &str) -> Option<Row<'_>> {
    let [hash, seed, secret, length, start, answer] =
        <[&str; 6]>::try_from(line.split(' ').collect::<Vec<_>>()).ok()?;
    let hexadecimal = |word| u64::from_str_radix(word, 16).ok();
    let seed = match seed {
        "-" => None,
        word => Some(hexadecimal(word)?),
    };
    let secret = match secret.split_once(':') {
        None => None,
        Some((length, start)) => Some(bytes(length.parse().ok()?, hexadecimal(start)?)),
    };
    Some(Row {
        hash,
        seed,
        secret,
        input: bytes(length.parse().ok()?, hexadecimal(start)?),
        answer: u128::from_str_radix(answer, 16).ok()?,
    })
}

// The highest bytes of the numbers after the start, as in oracle/vectors.c.
fn bytes(length: usize, start: u64) -> Vec<u8> {
    let next = |x: &u64| {
        Some(
            x.wrapping_mul(6_364_136_223_846_793_005)
                .wrapping_add(1_442_695_040_888_963_407),
        )
    };
    std::iter::successors(Some(start), next)
        .skip(1)
        .take(length)
        .map(|x| (x >> 56) as u8)
        .collect()
}

fn answers(row: &Row<'_>) -> Option<Vec<u128>> {
    let input = &row.input[..];
    Some(match (row.hash, row.seed, row.secret.as_deref()) {
        ("32", Some(seed), None) => {
            let seed = u32::try_from(seed).ok()?;
            vec![
                XxHash32::oneshot(seed, input).into(),
                streamed(XxHash32::with_seed(seed), input).into(),
            ]
        }
        ("64", Some(seed), None) => vec![
            XxHash64::oneshot(seed, input).into(),
            streamed(XxHash64::with_seed(seed), input).into(),
        ],
        ("3-64", Some(seed), None) => vec![
            XxHash3_64::oneshot_with_seed(seed, input).into(),
            streamed(XxHash3_64::with_seed(seed), input).into(),
        ],
        ("3-64", None, Some(secret)) => {
            vec![XxHash3_64::oneshot_with_secret(secret, input).ok()?.into()]
        }
        ("3-64", Some(seed), Some(secret)) => vec![
            XxHash3_64::oneshot_with_seed_and_secret(seed, secret, input)
                .ok()?
                .into(),
            streamed(XxHash3_64::with_seed_and_secret(seed, secret).ok()?, input).into(),
        ],
        ("3-128", Some(seed), None) => vec![
            XxHash3_128::oneshot_with_seed(seed, input),
            streamed_128(XxHash3_128::with_seed(seed), input),
        ],
        ("3-128", None, Some(secret)) => {
            vec![XxHash3_128::oneshot_with_secret(secret, input).ok()?]
        }
        ("3-128", Some(seed), Some(secret)) => vec![
            XxHash3_128::oneshot_with_seed_and_secret(seed, secret, input).ok()?,
            streamed_128(XxHash3_128::with_seed_and_secret(seed, secret).ok()?, input),
        ],
        _ => return None,
    })
}

// In chunks of 1, 2, 3 and so on bytes.
fn pieces(mut input: &[u8]) -> impl Iterator<Item = &[u8]> {
    (1..).map_while(move |length| {
        let (piece, rest) = input.split_at(input.len().min(length));
        input = rest;
        (!piece.is_empty()).then_some(piece)
    })
}

fn streamed(mut hasher: impl std::hash::Hasher, input: &[u8]) -> u64 {
    pieces(input).for_each(|piece| hasher.write(piece));
    hasher.finish()
}

fn streamed_128(mut hasher: XxHash3_128, input: &[u8]) -> u128 {
    pieces(input).for_each(|piece| hasher.write(piece));
    hasher.finish_128()
}
