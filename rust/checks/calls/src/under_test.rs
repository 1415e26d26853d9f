//! The calls that are compared, written once for this crate and for the original, which both have to compile them.

/// Defines a module that calls the crate of this name.
macro_rules! under_test {
    ($module:ident, $crate_name:ident) => {
        mod $module {
            use std::hash::Hasher as _;

            use crate::case::{Case, Outcome};
            use $crate_name::{
                xxhash3_128, xxhash3_64, XxHash32, XxHash3_128, XxHash3_64, XxHash64,
            };

            fn value(hash: impl Into<u128>) -> Outcome {
                Outcome::Value(hash.into())
            }

            fn value_or_refusal<T: Into<u128>, E: std::error::Error>(
                answer: Result<T, E>,
            ) -> Outcome {
                match answer {
                    Ok(hash) => value(hash),
                    Err(refusal) => Outcome::Refused(refusal.to_string()),
                }
            }

            // Writes all chunks, to a clone from some splits on.
            fn streamed<H: Clone>(
                mut hasher: H,
                case: &Case<'_>,
                write: impl Fn(&mut H, &[u8]),
            ) -> H {
                for (piece, is_cloned) in case.pieces() {
                    if is_cloned {
                        hasher = hasher.clone();
                    }
                    write(&mut hasher, piece);
                }
                hasher
            }

            // Writes a chunk of eight bytes as a word, as a map passes its key.
            fn write_piece<H: std::hash::Hasher>(hasher: &mut H, piece: &[u8]) {
                match piece.try_into() {
                    Ok(bytes) => hasher.write_u64(u64::from_ne_bytes(bytes)),
                    Err(_) => hasher.write(piece),
                }
            }

            fn streamed_64<H: Clone + std::hash::Hasher>(hasher: H, case: &Case<'_>) -> Outcome {
                value(streamed(hasher, case, write_piece).finish())
            }

            fn streamed_128(hasher: XxHash3_128, case: &Case<'_>) -> Outcome {
                value(streamed(hasher, case, |hasher, piece| hasher.write(piece)).finish_128())
            }

            fn raw_128<S: xxhash3_128::FixedBuffer + Clone>(
                buffer: xxhash3_128::SecretBuffer<S>,
                case: &Case<'_>,
            ) -> Outcome {
                let hasher = xxhash3_128::RawHasher::new(buffer);
                value(streamed(hasher, case, |hasher, piece| hasher.write(piece)).finish_128())
            }

            pub fn outcomes(case: &Case<'_>) -> Vec<(&'static str, Outcome)> {
                let mut outcomes = plain(case);
                outcomes.extend(of_64_bits(case));
                outcomes.extend(of_128_bits(case));
                outcomes
            }

            fn plain(case: &Case<'_>) -> Vec<(&'static str, Outcome)> {
                let &Case { seed, input, .. } = case;
                let stream = streamed(XxHash32::with_seed(seed as u32), case, write_piece);
                vec![
                    ("XXH32", value(XxHash32::oneshot(seed as u32, input))),
                    ("XXH32 in pieces", value(stream.finish_32())),
                    ("XXH32 as a hasher", value(stream.finish())),
                    ("XXH64", value(XxHash64::oneshot(seed, input))),
                    (
                        "XXH64 in pieces",
                        streamed_64(XxHash64::with_seed(seed), case),
                    ),
                ]
            }

            fn of_64_bits(case: &Case<'_>) -> Vec<(&'static str, Outcome)> {
                use xxhash3_64::{RawHasher, SecretBuffer};
                let Case {
                    seed,
                    secret,
                    input,
                    ..
                } = case;
                let seed = *seed;
                vec![
                    ("XXH3 64", value(XxHash3_64::oneshot(input))),
                    (
                        "XXH3 64, seed",
                        value(XxHash3_64::oneshot_with_seed(seed, input)),
                    ),
                    (
                        "XXH3 64, secret",
                        value_or_refusal(XxHash3_64::oneshot_with_secret(secret, input)),
                    ),
                    (
                        "XXH3 64, seed and secret",
                        value_or_refusal(XxHash3_64::oneshot_with_seed_and_secret(
                            seed, secret, input,
                        )),
                    ),
                    ("XXH3 64 in pieces", streamed_64(XxHash3_64::new(), case)),
                    (
                        "XXH3 64 in pieces, seed",
                        streamed_64(XxHash3_64::with_seed(seed), case),
                    ),
                    (
                        "XXH3 64 in pieces, seed and secret",
                        match XxHash3_64::with_seed_and_secret(seed, &secret[..]) {
                            Ok(hasher) => streamed_64(hasher, case),
                            Err(refusal) => Outcome::Refused(refusal.to_string()),
                        },
                    ),
                    (
                        "XXH3 64, raw",
                        streamed_64(RawHasher::new(SecretBuffer::default()), case),
                    ),
                    (
                        "XXH3 64, raw, seed",
                        streamed_64(
                            RawHasher::new(SecretBuffer::with_seed(seed, [7; 192]).unwrap()),
                            case,
                        ),
                    ),
                ]
            }

            fn of_128_bits(case: &Case<'_>) -> Vec<(&'static str, Outcome)> {
                use xxhash3_128::SecretBuffer;
                let Case {
                    seed,
                    secret,
                    input,
                    ..
                } = case;
                let seed = *seed;
                vec![
                    ("XXH3 128", value(XxHash3_128::oneshot(input))),
                    (
                        "XXH3 128, seed",
                        value(XxHash3_128::oneshot_with_seed(seed, input)),
                    ),
                    (
                        "XXH3 128, secret",
                        value_or_refusal(XxHash3_128::oneshot_with_secret(secret, input)),
                    ),
                    (
                        "XXH3 128, seed and secret",
                        value_or_refusal(XxHash3_128::oneshot_with_seed_and_secret(
                            seed, secret, input,
                        )),
                    ),
                    ("XXH3 128 in pieces", streamed_128(XxHash3_128::new(), case)),
                    (
                        "XXH3 128 in pieces, seed",
                        streamed_128(XxHash3_128::with_seed(seed), case),
                    ),
                    (
                        "XXH3 128 in pieces, seed and secret",
                        match XxHash3_128::with_seed_and_secret(seed, &secret[..]) {
                            Ok(hasher) => streamed_128(hasher, case),
                            Err(refusal) => Outcome::Refused(refusal.to_string()),
                        },
                    ),
                    ("XXH3 128, raw", raw_128(SecretBuffer::default(), case)),
                    (
                        "XXH3 128, raw, seed",
                        raw_128(SecretBuffer::allocate_with_seed(seed), case),
                    ),
                ]
            }

            /// The `Display` and `Debug` texts of hashers and errors, and whether a saved hasher continues unchanged.
            #[allow(dead_code)]
            pub fn texts(case: &Case<'_>) -> Vec<String> {
                let mut texts = Vec::new();
                let half = &case.input[..case.input.len() / 2];
                let short = &case.secret[..case.secret.len().min(135)];
                let mut by_32 = XxHash32::with_seed(case.seed as u32);
                let mut by_64 = XxHash64::with_seed(case.seed);
                by_32.write(half);
                by_64.write(half);
                texts.push(format!(
                    "{by_32:?} {by_32:#?} {} {}",
                    by_32.total_len(),
                    by_32.total_len_32()
                ));
                texts.push(format!("{by_64:?} {by_64:#?} {}", by_64.total_len()));
                texts.push(format!(
                    "{} {}",
                    by_32 == by_32.clone(),
                    by_64 == XxHash64::with_seed(case.seed)
                ));
                let (json_32, json_64) =
                    (serde_json::to_string(&by_32), serde_json::to_string(&by_64));
                texts.push(format!("{json_32:?} {json_64:?}"));
                let back_32: XxHash32 = serde_json::from_str(&json_32.unwrap()).unwrap();
                let back_64: XxHash64 = serde_json::from_str(&json_64.unwrap()).unwrap();
                texts.push(format!(
                    "{back_32:?} {back_64:?} {} {}",
                    back_32 == by_32,
                    back_64 == by_64
                ));
                let oneshot = XxHash3_64::oneshot_with_secret(short, case.input).unwrap_err();
                texts.push(format!("{oneshot} {oneshot:?}"));
                let refused = XxHash3_64::with_seed_and_secret(case.seed, short)
                    .err()
                    .unwrap();
                texts.push(format!("{refused} {refused:?}"));
                texts.push(format!("{:?}", refused.into_secret()));
                let refused = xxhash3_128::SecretBuffer::with_seed(case.seed, [3; 191])
                    .err()
                    .unwrap();
                texts.push(format!("{refused} {refused:?}"));
                texts.push(format!("{:?}", refused.into_secret()));
                texts.push(format!(
                    "{:?}",
                    XxHash3_128::with_seed(case.seed).into_secret()
                ));
                texts
            }

            #[allow(dead_code)]
            pub fn saved(is_32: bool, seed: u64, input: &[u8]) -> String {
                if is_32 {
                    let mut hasher = XxHash32::with_seed(seed as u32);
                    hasher.write(input);
                    serde_json::to_string(&hasher).unwrap()
                } else {
                    let mut hasher = XxHash64::with_seed(seed);
                    hasher.write(input);
                    serde_json::to_string(&hasher).unwrap()
                }
            }

            #[allow(dead_code)]
            pub fn resumed(
                is_32: bool,
                json: &str,
                input: &[u8],
            ) -> Result<u64, serde_json::Error> {
                if is_32 {
                    let mut hasher: XxHash32 = serde_json::from_str(json)?;
                    hasher.write(input);
                    Ok(hasher.finish())
                } else {
                    let mut hasher: XxHash64 = serde_json::from_str(json)?;
                    hasher.write(input);
                    Ok(hasher.finish())
                }
            }
        }
    };
}
