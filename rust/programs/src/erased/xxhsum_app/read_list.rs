// SPDX-License-Identifier: MIT
// crates/xxhsum_app/src/read_list.rt without its contracts, written by rust/erase --programs: change that file.

//! Reads the entries of a list.

use crate::rattle::prelude::Vec;
use crate::programs::xxhsum_app::texts::{eprint_unopened, eprint_unread};
use crate::rattle::Global;
use crate::programs::xxh_io::streams::{Sink, Source};
use crate::programs::xxhsum_audit::list::take_line;
use crate::programs::xxhsum_fs::store::Store;
use crate::programs::xxhsum_line::entry::Entry;
use crate::programs::xxhsum_program::check::eprint_line_error;
use crate::programs::xxhsum_program::context::Context;
use crate::programs::xxhsum_program::lines::{Lines, Next};
use crate::programs::xxhsum_program::progress_reader::ProgressReader;
use crate::programs::xxhsum_program::stop::Stop;
use crate::programs::xxhsum_program::terminal::TimedSink;

// Returns the entries of the list of this name. Returns `None` if it can't be opened or read, or a line is malformed or
// too long, which is reported.
pub(crate) fn read_list<S: Store, T: TimedSink, E: Sink>(
    context: &Context<'_, S, T>,
    list: &[u8],
    err: &mut E,
) -> Result<Option<Vec<Entry>>, Stop> {
    match context.progress.open(context.store, list) {
        Ok(file) => read_lines(
            context.alloc,
            context.options.is_little_endian,
            list,
            file,
            err,
        ),
        Err(refusal) => {
            eprint_unopened(list, &refusal, err);
            Ok(None)
        }
    }
}

// Returns the entries of a source, which is reported by this name. Separate function so that callers keep no stack frame.
#[inline(never)]
fn read_lines<R: Source , T: TimedSink, E: Sink>(
    alloc: Global,
    is_little: bool,
    list: &[u8],
    source: ProgressReader<R, T>,
    err: &mut E,
) -> Result<Option<Vec<Entry>>, Stop> {
    let mut lines = Lines::new(source);
    let mut entries = Vec::new(alloc);
    for number in 1..u64::MAX {
        match lines.next() {
            Next::End => return Ok(Some(entries)),
            Next::Failed => {
                eprint_unread(list, &lines.failure(), err);
                return Ok(None);
            }
            Next::Endless => {
                eprint_line_error(list, number, b"Line too long", err);
                return Ok(None);
            }
            Next::Line => {}
        }
        let Some(line) = lines.line() else {
            eprint_line_error(list, number, b"Line too long", err);
            return Ok(None);
        };
        if !take_line(alloc, line, is_little, &mut entries)? {
            eprint_line_error(list, number, b"Improperly formatted checksum line", err);
            return Ok(None);
        }
    }
    Err(Stop::OutOfMemory)
}
