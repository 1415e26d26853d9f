// SPDX-License-Identifier: MIT
// crates/xxhsum_app/src/run.rt without its contracts, written by rust/erase --programs: change that file.

//! Runs the program over its arguments.

use crate::rattle::prelude::Vec;
use crate::programs::xxhsum_app::audit::audit_names;
use crate::programs::xxhsum_app::names::names_listed;
use crate::programs::xxhsum_app::walk::files_below;
use crate::rattle::{AllocError, Global};
use crate::programs::xxh_io::streams::{Sink, Source};
use crate::programs::xxhsum_fs::below::Below;
use crate::programs::xxhsum_fs::folders::Folders;
use crate::programs::xxhsum_fs::store::Store;
use crate::programs::xxhsum_options::name::default_kind;
use crate::programs::xxhsum_options::options::{directory_in, parse_args, words_before, words_behind};
use crate::programs::xxhsum_output::output::Output;
use crate::programs::xxhsum_program::arguments::{Arguments, all_arguments};
use crate::programs::xxhsum_program::check::check_lists;
use crate::programs::xxhsum_program::context::Context;
use crate::programs::xxhsum_program::hash::hash_names;
use crate::programs::xxhsum_program::process::{
    Console, arguments_behind_name, end, eprint_answer, eprint_wrong, has_none, is_well, perform,
    print_answer, program_of, requested_run, waits_for_terminal,
};
use crate::programs::xxhsum_program::progress_reader::ProgressDisplay;
use crate::programs::xxhsum_program::stderr::eprint;
use crate::programs::xxhsum_program::stop::Stop;
use crate::programs::xxhsum_program::streams::Streams;
use crate::programs::xxhsum_program::terminal::TimedSink;

/// Does what the arguments ask for, over a store of files, or below a directory of it (`-C`), and over these streams.
/// Returns the exit status: 0 if every file was hashed or matches its line, and all output is written, otherwise 1.
///
/// The caller shows that neither the input nor the output has failed.
pub fn run<A, S, R, W, E, T>(
    alloc: Global,
    arguments: &A,
    store: &S,
    console: Console<R, T>,
    streams: &mut Streams<W, E>,
) -> u8
where
    A: Arguments,
    S: Store + Folders,
    R: Source ,
    W: Output,
    E: Sink,
    T: TimedSink, {
    streams.release();
    match all_arguments(alloc, arguments) {
        Ok(args) => {
            let done = run_arguments(alloc, &args, store, console, streams);
            end(done, streams)
        }
        Err(AllocError) => end(Err(Stop::OutOfMemory), streams),
    }
}

// Decides by the arguments what to do, and does it. Returns whether all went well.
fn run_arguments<S, R, W, E, T>(
    alloc: Global,
    args: &[Vec<u8>],
    store: &S,
    console: Console<R, T>,
    streams: &mut Streams<W, E>,
) -> Result<bool, Stop>
where
    S: Store + Folders,
    R: Source ,
    W: Output,
    E: Sink,
    T: TimedSink, {
    let Console {
        input,
        interactive,
        terminal,
    } = console;
    let program = program_of(args);
    let words = arguments_behind_name(args);
    let parsed = parse_args(default_kind(program), words);
    let Some(found) = requested_run(parsed) else {
        if is_well(parsed) {
            return print_answer(program, words, parsed, &mut streams.out);
        }
        eprint_answer(program, words, parsed, streams.messages());
        return Ok(false);
    };
    let (options, place) = found;
    let names = words_behind(words, place);
    if waits_for_terminal(interactive, options, names) {
        eprint_wrong(&[b"Wrong parameters"], program, streams.messages());
        return Ok(false);
    }
    let flags = words_before(words, place);
    let below = Below::new(directory_in(options, flags), store);
    let context = Context {
        alloc,
        store: &below,
        options,
        progress: ProgressDisplay::new(terminal, interactive, options),
    };
    perform_words(&context, flags, names, input, streams)
}

// Audits, hashes the files below folders, or hashes or checks the words or the names in lists of names.
fn perform_words<S, T, R, W, E>(
    context: &Context<'_, S, T>,
    flags: &[Vec<u8>],
    words: &[Vec<u8>],
    input: R,
    streams: &mut Streams<W, E>,
) -> Result<bool, Stop>
where
    S: Store + Folders,
    T: TimedSink,
    R: Source ,
    W: Output,
    E: Sink, {
    if context.options.audits {
        return walk_audit(context, flags, words, input, streams);
    }
    if context.options.walks {
        return walk_folders(context, flags, words, streams);
    }
    if context.options.names_from.are_listed() {
        return walk_names(context, words, input, streams);
    }
    perform(context, words, input, streams)
}

// Audits names against the list that the first argument names.
fn walk_audit<S, T, R, W, E>(
    context: &Context<'_, S, T>,
    flags: &[Vec<u8>],
    words: &[Vec<u8>],
    input: R,
    streams: &mut Streams<W, E>,
) -> Result<bool, Stop>
where
    S: Store + Folders,
    T: TimedSink,
    R: Source ,
    W: Output,
    E: Sink, {
    let Some((list, rest)) = words.split_first() else {
        eprint(b"Error: --audit needs a list.\n", streams.messages());
        return Ok(false);
    };
    if context.options.walks {
        return audit_below(context, flags, list, rest, streams);
    }
    if !context.options.names_from.are_listed() {
        return audit_names(context, &[], list, rest, streams);
    }
    let Some(names) = names_listed(context, rest, input, streams.messages())? else {
        return Ok(false);
    };
    audit_names(context, &[], list, &names, streams)
}

// Audits the files of the names and below their folders against `list`. Folders that can't be read are unreadable in
// the report.
fn audit_below<S: Store + Folders, T: TimedSink, W: Output, E: Sink>(
    context: &Context<'_, S, T>,
    flags: &[Vec<u8>],
    list: &[u8],
    names: &[Vec<u8>],
    streams: &mut Streams<W, E>,
) -> Result<bool, Stop> {
    match files_below(
        context.alloc,
        context.store,
        flags,
        names,
        streams.messages(),
    ) {
        Ok(walked) => audit_names(context, &walked.unread, list, &walked.files, streams),
        Err(stop) => Err(stop),
    }
}

// Hashes the files of the names and below their folders.
fn walk_folders<S: Store + Folders, T: TimedSink, W: Output, E: Sink>(
    context: &Context<'_, S, T>,
    flags: &[Vec<u8>],
    names: &[Vec<u8>],
    streams: &mut Streams<W, E>,
) -> Result<bool, Stop> {
    match files_below(
        context.alloc,
        context.store,
        flags,
        names,
        streams.messages(),
    ) {
        Ok(walked) => {
            let done = hash_names(context, &walked.files, streams);
            all_well(has_none(&walked.unread), done)
        }
        Err(stop) => Err(stop),
    }
}

// True if all folders were read, and all went well with the files.
fn all_well(is_complete: bool, done: Result<bool, Stop>) -> Result<bool, Stop> {
    match done {
        Ok(all) => Ok(is_complete && all),
        Err(stop) => Err(stop),
    }
}

// Hashes or checks the names in lists of names.
fn walk_names<S: Store, T: TimedSink, R: Source , W: Output, E: Sink>(
    context: &Context<'_, S, T>,
    lists: &[Vec<u8>],
    input: R,
    streams: &mut Streams<W, E>,
) -> Result<bool, Stop> {
    let Some(names) = names_listed(context, lists, input, streams.messages())? else {
        return Ok(false);
    };
    if context.options.checks {
        return check_lists(context, &names, streams);
    }
    hash_names(context, &names, streams)
}
