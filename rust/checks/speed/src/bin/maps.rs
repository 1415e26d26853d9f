//! Times `get` of a `HashMap` of 1,024 keys, by the hashers of the crate, of the standard library and, with the feature
//! `original`, of the crate that has these names. It prints a line per key: its name, and the nanoseconds per call of
//! each hasher, the best of many rounds.
//!
//! ```text
//! maps ROUNDS
//! ```

use std::collections::hash_map::RandomState;
use std::collections::HashMap;
use std::hash::{BuildHasher, BuildHasherDefault, Hash};
use std::hint::black_box;
use std::time::Instant;

const KEYS: usize = 1024;

/// Gets the value of each key of a map.
type Gets<'a> = Box<dyn Fn() -> u64 + 'a>;

#[inline(never)]
fn sum_of<K: Hash + Eq, S: BuildHasher>(map: &HashMap<K, u64, S>, keys: &[K]) -> u64 {
    keys.iter()
        .map(|key| map.get(black_box(key)).copied().unwrap_or(0))
        .sum()
}

fn map_by<'a, K: Hash + Eq + Clone, S: BuildHasher + 'a>(keys: &'a [K], state: S) -> Gets<'a> {
    let mut map = HashMap::with_capacity_and_hasher(keys.len(), state);
    map.extend(keys.iter().cloned().zip(0..));
    Box::new(move || sum_of(&map, keys))
}

fn maps_of<'a, K: Hash + Eq + Clone>(keys: &'a [K]) -> Vec<Gets<'a>> {
    vec![
        map_by(keys, RandomState::new()),
        map_by(keys, BuildHasherDefault::<twox_hash::XxHash3_64>::default()),
        map_by(keys, twox_hash::xxhash64::State::with_seed(7)),
        #[cfg(feature = "original")]
        map_by(keys, BuildHasherDefault::<original::XxHash3_64>::default()),
        #[cfg(feature = "original")]
        map_by(keys, original::xxhash64::State::with_seed(7)),
    ]
}

fn print_times<K: Hash + Eq + Clone>(name: &str, rounds: u32, keys: &[K]) {
    let maps = maps_of(keys);
    let mut least = vec![f64::INFINITY; maps.len()];
    for _ in 0..rounds {
        for (gets, least) in maps.iter().zip(&mut least) {
            let start = Instant::now();
            black_box(gets());
            *least = least.min(start.elapsed().as_nanos() as f64 / KEYS as f64);
        }
    }
    let times: Vec<String> = least.iter().map(|time| format!("{time:.2}")).collect();
    println!("{name}\t{}", times.join("\t"));
}

/// Numbers in no order, by Marsaglia's xorshift.
fn numbers() -> Vec<u64> {
    let mut number = 88_172_645_463_325_252_u64;
    let next = |_| {
        number ^= number << 13;
        number ^= number >> 7;
        number ^= number << 17;
        number
    };
    (0..KEYS).map(next).collect()
}

fn main() {
    let Some(rounds) = std::env::args()
        .nth(1)
        .and_then(|rounds| rounds.parse().ok())
    else {
        eprintln!("usage: maps ROUNDS");
        std::process::exit(2);
    };
    let numbers = numbers();
    let pairs: Vec<_> = numbers
        .iter()
        .map(|n| (*n as u32, (n >> 32) as u32))
        .collect();
    let wide: Vec<_> = numbers.iter().map(|n| (*n, n.rotate_left(7))).collect();
    print_times("u64", rounds, &numbers);
    print_times("(u32, u32)", rounds, &pairs);
    print_times("(u64, u64)", rounds, &wide);
    for length in [6, 16, 25, 75, 200] {
        let strings: Vec<_> = numbers.iter().map(|n| string_of(*n, length)).collect();
        print_times(&format!("string of {length} bytes"), rounds, &strings);
    }
}

// The last six digits differ from key to key, as those of most names do.
fn string_of(number: u64, length: usize) -> String {
    format!(
        "{:a<width$}{:06x}",
        "",
        number & 0xff_ffff,
        width = length - 6
    )
}
