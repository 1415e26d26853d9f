//! Compares calls of the crate, drawn at random, with the C library and with `xxhash-rust`; with the feature
//! `original` also with the crate whose names these are, texts and saved hashers included.
//!
//! ```text
//! calls compare COUNT SEED     compares COUNT calls at least
//! calls table                  compares the oracle's table, on standard input
//! calls save 32|64 SEED        the saved hasher of standard input, as JSON
//! calls resume 32|64 JSON      the hash that a saved hasher gives after standard input
//! ```

mod case;
mod reference;
mod table;
#[macro_use]
mod under_test;

use std::env;
use std::io::{self, Read};
use std::process::ExitCode;

use case::{Case, Outcome, Random};

under_test!(ours, twox_hash);
#[cfg(feature = "original")]
under_test!(theirs, original);

fn main() -> ExitCode {
    let words: Vec<String> = env::args().skip(1).collect();
    let words: Vec<&str> = words.iter().map(String::as_str).collect();
    match words[..] {
        ["compare", count, seed] => compare(number(count), number(seed)),
        ["save", bits, seed] => {
            println!(
                "{}",
                ours::saved(bits == "32", number(seed), &standard_input())
            );
            ExitCode::SUCCESS
        }
        ["table"] => table(),
        ["resume", bits, json] => resume(bits == "32", json),
        _ => {
            eprintln!(
                "usage: calls compare COUNT SEED | table | save 32|64 SEED | resume 32|64 JSON"
            );
            ExitCode::from(2)
        }
    }
}

fn number(word: &str) -> u64 {
    word.parse().expect("a number is wanted")
}

fn standard_input() -> Vec<u8> {
    let mut bytes = Vec::new();
    io::stdin()
        .read_to_end(&mut bytes)
        .expect("standard input failed");
    bytes
}

fn resume(is_32: bool, json: &str) -> ExitCode {
    match ours::resumed(is_32, json, &standard_input()) {
        Ok(hash) => {
            println!("{hash:x}");
            ExitCode::SUCCESS
        }
        Err(refusal) => {
            eprintln!("{refusal}");
            ExitCode::FAILURE
        }
    }
}

fn table() -> ExitCode {
    let text = String::from_utf8(standard_input()).expect("the table is text");
    match table::agrees(&text) {
        Ok(compared) => {
            println!("{compared} calls, none differs");
            ExitCode::SUCCESS
        }
        Err(difference) => {
            println!("{difference}");
            ExitCode::FAILURE
        }
    }
}

fn compare(count: u64, seed: u64) -> ExitCode {
    let mut random = Random::new(seed);
    let bytes = random.bytes(1 << 17);
    let mut compared = 0;
    while compared < count {
        let case = Case::draw(&mut random, &bytes);
        let ours = ours::outcomes(&case);
        compared += ours.len() as u64;
        if let Err(difference) = agree(&case, &ours) {
            println!("{difference}\nof {case:?}");
            return ExitCode::FAILURE;
        }
    }
    println!("{compared} calls, none differs");
    ExitCode::SUCCESS
}

fn agree(case: &Case<'_>, ours: &[(&str, Outcome)]) -> Result<(), String> {
    same("the C library", ours, &reference::c_library(case))?;
    same("xxhash-rust", ours, &reference::xxhash_rust(case))?;
    #[cfg(feature = "original")]
    {
        same("the original", ours, &theirs::outcomes(case))?;
        let (ours, theirs) = (ours::texts(case), theirs::texts(case));
        if ours != theirs {
            return Err(format!(
                "the original's texts are {theirs:#?}, ours {ours:#?}"
            ));
        }
    }
    Ok(())
}

fn same(peer: &str, ours: &[(&str, Outcome)], theirs: &[(&str, Outcome)]) -> Result<(), String> {
    if ours.len() != theirs.len() {
        return Err(format!(
            "{peer}: {} calls, ours {}",
            theirs.len(),
            ours.len()
        ));
    }
    for (our, their) in ours.iter().zip(theirs) {
        if our != their {
            return Err(format!("{peer}: {their:x?}, ours {our:x?}"));
        }
    }
    Ok(())
}
