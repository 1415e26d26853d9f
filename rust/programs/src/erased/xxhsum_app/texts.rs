// SPDX-License-Identifier: MIT
// crates/xxhsum_app/src/texts.rt without its contracts, written by rust/erase --programs: change that file.

//! Reads whole lists.

use crate::rattle::prelude::Vec;
use crate::rattle::{AllocError, Global};
use crate::programs::xxh_io::refusal::Refusal;
use crate::programs::xxh_io::streams::{Sink, Source};
use crate::programs::xxhsum_audit::read::read_text;
use crate::programs::xxhsum_fs::store::Store;
use crate::programs::xxhsum_program::context::Context;
use crate::programs::xxhsum_program::process::has_none;
use crate::programs::xxhsum_program::progress_reader::{ProgressDisplay, ProgressReader};
use crate::programs::xxhsum_program::stderr::eprint_line;
use crate::programs::xxhsum_program::stop::Stop;
use crate::programs::xxhsum_program::terminal::TimedSink;

// The name of standard input.
const INPUT: &[u8] = b"stdin";

/// Returns all bytes of the file of this name. Returns `None` if it can't be opened or read, which is reported.
///
/// # Errors
///
/// [`Stop::OutOfMemory`] if memory runs out.
pub fn text_named<S: Store, T: TimedSink, E: Sink>(
    context: &Context<'_, S, T>,
    name: &[u8],
    err: &mut E,
) -> Result<Option<Vec<u8>>, Stop> {
    match context.progress.open(context.store, name) {
        Ok(file) => text_of(context.alloc, name, file, err),
        Err(refusal) => {
            eprint_unopened(name, &refusal, err);
            Ok(None)
        }
    }
}

// Reports that the list of this name can't be opened.
pub(crate) fn eprint_unopened<'a, E: Sink>(name: &'a [u8], refusal: &'a Refusal, err: &mut E) {
    let parts: [&[u8]; 5] = [
        b"Error: Could not open '",
        name,
        b"': ",
        refusal.text(),
        b".",
    ];
    eprint_line(&parts, err);
}

// Reports that a read of the list of this name failed.
pub(crate) fn eprint_unread<'a, E: Sink>(name: &'a [u8], failure: &'a Refusal, err: &mut E) {
    let parts: [&[u8]; 5] = [
        b"Error: Could not read '",
        name,
        b"': ",
        failure.text(),
        b".",
    ];
    eprint_line(&parts, err);
}

/// Returns all bytes of a source that is reported by this name. Returns `None` if it can't be read, which is reported.
///
/// # Errors
///
/// [`Stop::OutOfMemory`] if memory runs out.
pub fn text_of<R: Source , T: TimedSink, E: Sink>(
    alloc: Global,
    name: &[u8],
    source: ProgressReader<R, T>,
    err: &mut E,
) -> Result<Option<Vec<u8>>, Stop> {
    let mut source = source;
    match read_text(alloc, &mut source)? {
        Some(text) => Ok(Some(text)),
        None => {
            eprint_unread(name, &source.failure(), err);
            Ok(None)
        }
    }
}

/// Returns the texts of these files, or of the input if there are no names. Returns `None` if one can't be read, which
/// is reported.
///
/// # Errors
///
/// [`Stop::OutOfMemory`] if memory runs out.
pub fn texts_named<S: Store, T: TimedSink, R: Source , E: Sink>(
    context: &Context<'_, S, T>,
    names: &[Vec<u8>],
    input: R,
    err: &mut E,
) -> Result<Option<Vec<Vec<u8>>>, Stop> {
    if has_none(names) {
        return text_of_input(context.alloc, context.progress, input, err);
    }
    texts_of_files(context, names, err)
}

// Returns the text of the input as the only text.
fn text_of_input<R: Source , T: TimedSink, E: Sink>(
    alloc: Global,
    progress: ProgressDisplay<T>,
    input: R,
    err: &mut E,
) -> Result<Option<Vec<Vec<u8>>>, Stop> {
    let Some(text) = text_of(alloc, INPUT, progress.watch(input), err)? else {
        return Ok(None);
    };
    let mut texts = Vec::new(alloc);
    add_text(&mut texts, text)?;
    Ok(Some(texts))
}

// Returns the texts of these files.
fn texts_of_files<S: Store, T: TimedSink, E: Sink>(
    context: &Context<'_, S, T>,
    names: &[Vec<u8>],
    err: &mut E,
) -> Result<Option<Vec<Vec<u8>>>, Stop> {
    let mut texts = Vec::new(context.alloc);
    for name in names {
        let Some(text) = text_named(context, name, err)? else {
            return Ok(None);
        };
        add_text(&mut texts, text)?;
    }
    Ok(Some(texts))
}

fn add_text(texts: &mut Vec<Vec<u8>>, text: Vec<u8>) -> Result<(), AllocError> {
    texts.push(text)?;
    Ok(())
}
