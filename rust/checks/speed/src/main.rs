//! Times calls of the crate, of `xxhash-rust` and, with the feature `original`, of the crate that has these names. It
//! prints one line per measurement: its name, and the nanoseconds per call of each peer, the best of many turns.
//!
//! ```text
//! speed TURNS
//! speed count CALLS
//! ```
//!
//! The second form makes this many calls for each measurement and peer, with a call of `mark` before and after them,
//! and prints only the names: rust/count has callgrind count the instructions between the marks.

use std::hash::{BuildHasher, Hasher};
use std::hint::black_box;
use std::time::{Duration, Instant};

const SEED: u64 = 0x1234_5678_9abc_def0;
const LENGTHS: [usize; 22] = [
    0,
    1,
    4,
    8,
    16,
    17,
    32,
    48,
    64,
    96,
    128,
    129,
    160,
    200,
    240,
    241,
    256,
    512,
    1 << 10,
    16 << 10,
    64 << 10,
    1 << 20,
];
/// Chunks of 8 KiB, and of shorter streams.
const PIECES: [usize; 13] = [1, 4, 8, 16, 24, 32, 40, 64, 128, 240, 256, 1000, 4096];
const SHORT_PIECES: [usize; 5] = [8, 16, 32, 40, 64];
const SHORT_STREAMS: [usize; 6] = [16, 32, 64, 256, 1024, 4096];
// A turn takes some 20 microseconds, so that one without an interruption is among a few hundred.
const TURN: Duration = Duration::from_micros(20);

/// A map's key that is a string, and the bytes of the other keys.
const TEXT: &str = "a key of 20 bytes...";

/// A call on bytes. Each measurement has one for each peer.
type Call<'a> = Box<dyn Fn(&[u8]) -> u64 + 'a>;

/// The least time of a call in nanoseconds, over many turns.
struct Least<'a> {
    call: Call<'a>,
    calls_a_turn: u32,
    nanoseconds: f64,
}

impl<'a> Least<'a> {
    fn new(call: Call<'a>, input: &[u8]) -> Self {
        let mut calls_a_turn = 1;
        while time(&call, input, calls_a_turn) < TURN {
            calls_a_turn *= 2;
        }
        Least {
            call,
            calls_a_turn,
            nanoseconds: f64::INFINITY,
        }
    }

    fn turn(&mut self, input: &[u8]) {
        let took = time(&self.call, input, self.calls_a_turn).as_nanos() as f64;
        self.nanoseconds = self.nanoseconds.min(took / f64::from(self.calls_a_turn));
    }
}

fn time(call: &Call<'_>, input: &[u8], calls: u32) -> Duration {
    let start = Instant::now();
    for _ in 0..calls {
        black_box(call(black_box(input)));
    }
    start.elapsed()
}

/// What is measured.
#[derive(Clone, Copy)]
enum Measure {
    /// This many turns, of which the best counts.
    Turns(u32),
    /// This many calls between two marks.
    Calls(u32),
}

/// Callgrind starts a new count here.
#[no_mangle]
#[inline(never)]
extern "C" fn mark() {
    black_box(());
}

fn row(name: &str, measure: Measure, input: &[u8], calls: Vec<Call<'_>>) {
    match measure {
        Measure::Turns(turns) => println!("{name}\t{}", times(turns, input, calls).join("\t")),
        Measure::Calls(count) => {
            for call in calls {
                mark();
                time(&call, input, count);
                mark();
            }
            println!("{name}");
        }
    }
}

// The peers take turns, so that disturbances affect each.
fn times(turns: u32, input: &[u8], calls: Vec<Call<'_>>) -> Vec<String> {
    let mut peers: Vec<Least<'_>> = calls
        .into_iter()
        .map(|call| Least::new(call, input))
        .collect();
    for _ in 0..turns {
        peers.iter_mut().for_each(|peer| peer.turn(input));
    }
    peers
        .iter()
        .map(|peer| format!("{:.1}", peer.nanoseconds))
        .collect()
}

// Uses both halves, since an inlined peer would not compute one that nothing reads.
fn folded(value: u128) -> u64 {
    (value >> 64) as u64 ^ value as u64
}

fn streamed<H: Hasher>(mut hasher: H, input: &[u8], piece: usize) -> u64 {
    for bytes in input.chunks(piece) {
        hasher.write(bytes);
    }
    hasher.finish()
}

fn key<S: BuildHasher>(state: &S, input: &[u8]) -> u64 {
    state.hash_one(u64::from_ne_bytes([input[0]; 8]))
}

fn pair<S: BuildHasher>(state: &S, input: &[u8]) -> u64 {
    state.hash_one((u32::from(input[0]), u64::from(input[1])))
}

fn string<S: BuildHasher>(state: &S, input: &[u8]) -> u64 {
    state.hash_one(std::str::from_utf8(&input[..TEXT.len()]).unwrap_or(""))
}

fn keyed<'a, S: BuildHasher + 'a>(state: S, hash: impl Fn(&S, &[u8]) -> u64 + 'a) -> Call<'a> {
    Box::new(move |input| hash(&state, input))
}

/// The calls of a crate with the names of `twox-hash`, in the order of [`names`].
macro_rules! calls_of {
    ($module:ident, $of:ident) => {
        mod $module {
            use super::*;
            use std::hash::BuildHasherDefault;
            use $of::xxhash3_64::{RawHasher, SecretBuffer};
            use $of::{xxhash64, XxHash32, XxHash3_128, XxHash3_64, XxHash64};

            pub fn oneshots(secret: &[u8]) -> Vec<Call<'_>> {
                vec![
                    Box::new(|input| XxHash32::oneshot(SEED as u32, input).into()),
                    Box::new(|input| XxHash64::oneshot(SEED, input)),
                    Box::new(XxHash3_64::oneshot),
                    Box::new(|input| XxHash3_64::oneshot_with_seed(SEED, input)),
                    Box::new(|input| XxHash3_64::oneshot_with_secret(secret, input).unwrap()),
                    Box::new(|input| folded(XxHash3_128::oneshot(input))),
                    Box::new(|input| folded(XxHash3_128::oneshot_with_seed(SEED, input))),
                    Box::new(|input| {
                        folded(XxHash3_128::oneshot_with_secret(secret, input).unwrap())
                    }),
                ]
            }

            pub fn streams<'a>(piece: usize) -> Vec<Call<'a>> {
                vec![
                    Box::new(move |input| streamed(XxHash32::with_seed(7), input, piece)),
                    Box::new(move |input| streamed(XxHash64::with_seed(7), input, piece)),
                    Box::new(move |input| streamed(XxHash3_64::new(), input, piece)),
                    Box::new(move |input| {
                        streamed(RawHasher::new(SecretBuffer::default()), input, piece)
                    }),
                ]
            }

            pub fn others<'a>() -> Vec<Call<'a>> {
                let of_xxh64 = || xxhash64::State::with_seed(7);
                let of_xxh3 = BuildHasherDefault::<XxHash3_64>::default;
                vec![
                    keyed(of_xxh64(), key),
                    keyed(of_xxh3(), key),
                    keyed(of_xxh64(), pair),
                    keyed(of_xxh3(), pair),
                    keyed(of_xxh64(), string),
                    keyed(of_xxh3(), string),
                    Box::new(|input| {
                        streamed(XxHash3_64::with_seed(input[0].into()), &input[..8], 8)
                    }),
                ]
            }
        }
    };
}

calls_of!(ours, twox_hash);
#[cfg(feature = "original")]
calls_of!(theirs, original);

mod peer {
    use super::*;
    use xxhash_rust::xxh3::{self, Xxh3};
    use xxhash_rust::{xxh32, xxh64};

    pub fn oneshots(secret: &[u8]) -> Vec<Call<'_>> {
        vec![
            Box::new(|input| xxh32::xxh32(input, SEED as u32).into()),
            Box::new(|input| xxh64::xxh64(input, SEED)),
            Box::new(xxh3::xxh3_64),
            Box::new(|input| xxh3::xxh3_64_with_seed(input, SEED)),
            Box::new(|input| xxh3::xxh3_64_with_secret(input, secret)),
            Box::new(|input| folded(xxh3::xxh3_128(input))),
            Box::new(|input| folded(xxh3::xxh3_128_with_seed(input, SEED))),
            Box::new(|input| folded(xxh3::xxh3_128_with_secret(input, secret))),
        ]
    }

    pub fn streams<'a>(piece: usize) -> Vec<Call<'a>> {
        vec![
            Box::new(move |input| {
                let mut hasher = xxh32::Xxh32::new(7);
                input.chunks(piece).for_each(|bytes| hasher.update(bytes));
                hasher.digest().into()
            }),
            Box::new(move |input| streamed(xxh64::Xxh64::new(7), input, piece)),
            Box::new(move |input| streamed(Xxh3::new(), input, piece)),
            Box::new(move |input| streamed(Xxh3::new(), input, piece)),
        ]
    }

    pub fn others<'a>() -> Vec<Call<'a>> {
        let of_xxh64 = || xxh64::Xxh64Builder::new(7);
        let of_xxh3 = xxh3::Xxh3Builder::new;
        vec![
            keyed(of_xxh64(), key),
            keyed(of_xxh3(), key),
            keyed(of_xxh64(), pair),
            keyed(of_xxh3(), pair),
            keyed(of_xxh64(), string),
            keyed(of_xxh3(), string),
            Box::new(|input| streamed(Xxh3::with_seed(input[0].into()), &input[..8], 8)),
        ]
    }
}

// Measures each call, with that call of each peer.
fn rows(names: &[&str], of: &str, measure: Measure, input: &[u8], mut peers: Vec<Vec<Call<'_>>>) {
    for name in names.iter().rev() {
        let calls = peers.iter_mut().filter_map(Vec::pop).collect();
        row(&format!("{name}\t{of}"), measure, input, calls);
    }
}

fn peers<'a>(
    of_ours: Vec<Call<'a>>,
    of_peer: Vec<Call<'a>>,
    _of_theirs: impl Fn() -> Vec<Call<'a>>,
) -> Vec<Vec<Call<'a>>> {
    #[cfg(feature = "original")]
    return vec![of_ours, of_peer, _of_theirs()];
    #[cfg(not(feature = "original"))]
    vec![of_ours, of_peer]
}

#[cfg(not(feature = "original"))]
use peer as theirs;

// Turns, or a count of calls.
fn asked() -> Option<Measure> {
    let words: Vec<String> = std::env::args().skip(1).collect();
    match &words[..] {
        [turns] => turns.parse().ok().map(Measure::Turns),
        [count, calls] if count == "count" => calls.parse().ok().map(Measure::Calls),
        _ => None,
    }
}

fn main() {
    let Some(measure) = asked() else {
        eprintln!("usage: speed TURNS | speed count CALLS");
        std::process::exit(2);
    };
    let bytes: Vec<u8> = (0..1 << 20)
        .map(|i: u32| (i.wrapping_mul(0x9e37_79b1) >> 24) as u8)
        .collect();
    if let Measure::Calls(_) = measure {
        row("no call\t", measure, &bytes, vec![Box::new(|_| 0)]);
    }
    oneshots(measure, &bytes);
    streams(measure, &bytes[..8192]);
    others(measure, TEXT.as_bytes());
}

fn oneshots(measure: Measure, bytes: &[u8]) {
    let names = [
        "XXH32",
        "XXH64",
        "XXH3 64",
        "XXH3 64, seed",
        "XXH3 64, secret",
        "XXH3 128",
        "XXH3 128, seed",
        "XXH3 128, secret",
    ];
    let secret: Vec<u8> = bytes.iter().rev().copied().take(192).collect();
    for length in LENGTHS {
        let peers = peers(ours::oneshots(&secret), peer::oneshots(&secret), || {
            theirs::oneshots(&secret)
        });
        rows(
            &names,
            &length.to_string(),
            measure,
            &bytes[..length],
            peers,
        );
    }
}

fn streams(measure: Measure, bytes: &[u8]) {
    let names = ["XXH32", "XXH64", "XXH3 64", "XXH3 64, raw"];
    let long = PIECES.map(|piece| (8192, piece));
    let short = SHORT_STREAMS
        .iter()
        .flat_map(|length| SHORT_PIECES.map(|piece| (*length, piece)));
    for (length, piece) in long
        .into_iter()
        .chain(short.filter(|(length, piece)| piece <= length))
    {
        let peers = peers(ours::streams(piece), peer::streams(piece), || {
            theirs::streams(piece)
        });
        let of = format!("{length} by {piece}");
        rows(&names, &of, measure, &bytes[..length], peers);
    }
}

fn others(measure: Measure, key: &[u8]) {
    let names = [
        "a map's u64 by XXH64",
        "a map's u64 by XXH3",
        "a map's tuple by XXH64",
        "a map's tuple by XXH3",
        "a map's string by XXH64",
        "a map's string by XXH3",
        "XXH3 64 with_seed, 8 bytes, finish",
    ];
    let peers = peers(ours::others(), peer::others(), || theirs::others());
    rows(&names, "", measure, key, peers);
}
