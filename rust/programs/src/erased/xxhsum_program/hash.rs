// SPDX-License-Identifier: MIT
// crates/xxhsum_program/src/hash.rt without its contracts, written by rust/erase --programs: change that file.

//! Digest lines of named files.

use crate::rattle::prelude::Vec;
use crate::programs::xxhsum_program::context::Context;
use crate::programs::xxhsum_program::outcome::{OFFERED, Outcome, outcome_of, reason_of};
use crate::programs::xxhsum_program::progress_reader::ProgressReader;
use crate::programs::xxhsum_program::stderr::eprint_line;
use crate::programs::xxhsum_program::stdout::print;
use crate::programs::xxhsum_program::stop::Stop;
use crate::programs::xxhsum_program::streams::Streams;
use crate::programs::xxhsum_program::terminal::TimedSink;
use crate::rattle::Global;
use crate::programs::xxh_io::streams::{Sink, Source};
use crate::programs::xxhsum_fs::store::Store;
use crate::programs::xxhsum_line::printed::{Shape, Style, styled_line};
use crate::programs::xxhsum_options::options::Options;
use crate::programs::xxhsum_output::output::Output;

/// Writes the digest line of each named file, in order. Reports names that have none: directories, and files that can't
/// be opened or read to their end. Returns whether all have one.
///
/// The caller shows that no write to the output has failed before.
///
/// # Errors
///
/// Both errors end the run at once; the lines before it are written. [`Stop::WriteFailed`] if a write of a line fails,
/// and [`Stop::OutOfMemory`] if memory for a line runs out.
#[inline(never)]
pub fn hash_names<S: Store, T: TimedSink, W: Output, E: Sink>(
    context: &Context<'_, S, T>,
    names: &[Vec<u8>],
    streams: &mut Streams<W, E>,
) -> Result<bool, Stop> {
    let mut buf = [0; OFFERED];
    let mut all = true;
    for name in names {
        let outcome = outcome_of(context, context.options.kind, name, &mut buf);
        write_outcome(context.alloc, context.options, name, &outcome, streams)?;
        all = all && outcome.is_digested();
    }
    Ok(all)
}

/// Writes the digest line of `input` under this name. Reports an input that can't be read to its end. Returns whether
/// it was read.
///
/// The caller shows that neither the source nor the output has failed.
///
/// # Errors
///
/// [`Stop::WriteFailed`] if a write of the line fails, and [`Stop::OutOfMemory`] if memory for it runs out.
#[inline(never)]
pub fn hash_input<R: Source, T: TimedSink, W: Output, E: Sink>(
    alloc: Global,
    options: Options,
    name: &[u8],
    input: &mut ProgressReader<R, T>,
    streams: &mut Streams<W, E>,
) -> Result<bool, Stop> {
    match input.value(options.kind, &mut [0; OFFERED]) {
        Ok(value) => {
            print_value(alloc, options, name, value, &mut streams.out)?;
            Ok(true)
        }
        Err(error) => {
            let reason = reason_of(error, input.failure());
            streams.report(&[
                b"Error: Could not read '",
                name,
                b"': ",
                reason.text(),
                b".",
            ]);
            Ok(false)
        }
    }
}

// Writes the digest line of a name that has a value, and reports why another name has none.
fn write_outcome<W: Output, E: Sink>(
    alloc: Global,
    options: Options,
    name: &[u8],
    outcome: &Outcome,
    streams: &mut Streams<W, E>,
) -> Result<(), Stop> {
    match outcome {
        Outcome::Digested { value } => {
            print_value(alloc, options, name, *value, &mut streams.out)
        }
        Outcome::IsDirectory | Outcome::Unread { .. } => {
            streams.release();
            eprint_outcome(name, outcome, streams.messages());
            Ok(())
        }
    }
}

// Writes the digest line of this value under this name.
fn print_value<W: Output>(
    alloc: Global,
    options: Options,
    name: &[u8],
    value: u128,
    out: &mut W,
) -> Result<(), Stop> {
    let line = styled_line(alloc, options.kind, style_of(options), value, name)?;
    print(&line, out)
}

// Returns the style of lines by the options.
fn style_of(options: Options) -> Style {
    Style {
        shape: Shape {
            is_tagged: options.is_tagged,
            is_little: options.is_little_endian,
        },
        ends_in_nul: options.ends_in_nul,
    }
}

/// Reports why a name has no value. Writes nothing for a name that has one.
pub fn eprint_outcome<'a, E: Sink>(name: &'a [u8], outcome: &'a Outcome, err: &mut E) {
    match outcome {
        Outcome::Digested { .. } => {}
        Outcome::IsDirectory => eprint_line(&[b"xxhsum: ", name, b": Is a directory "], err),
        Outcome::Unread { reason } => {
            let parts: [&[u8]; 7] = [
                b"Error: Could not ",
                reason.step(),
                b" '",
                name,
                b"': ",
                reason.text(),
                b". ",
            ];
            eprint_line(&parts, err);
        }
    }
}
