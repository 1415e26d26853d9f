// SPDX-License-Identifier: MIT
// crates/xxh_program/src/program/process.rt without its contracts, written by rust/erase --programs: change that file.

//! The program over a process: its arguments, its streams, and the flush at the end.

use crate::rattle::prelude::{AllocGlobal, String, Vec};
use crate::programs::xxh_program::program::command_line::run;
use crate::programs::xxh_program::program::information::{information_of, print_information};
use crate::rattle::{AllocError, Global};
use crate::rattle::env;
use crate::rattle::io::{Read, Write};
use crate::rattle::rt::Env;
use crate::programs::xxh_io::arguments::{argument_fault, words_after_name};
use crate::programs::xxh_io::buffered::Buffered;
use crate::programs::xxh_io::digest_error::DigestError;
use crate::programs::xxh_io::fault::{Fault, conclude};
use crate::programs::xxh_io::from_read::FromRead;
use crate::programs::xxh_io::from_write::FromWrite;
use crate::programs::xxh_io::streams::{Failed, Sink, Source};

// Size of the input's buffer for reads that offer fewer bytes, as those of `save` and `resume` do: one system call for
// each of these would halve the speed.
const INPUT_BUFFER: usize = 65536;

/// Runs the program with the arguments of the process over these streams, and returns the exit status.
///
/// If the only argument is `--help` or `--version`, prints that, with [`print_information`], and reads nothing.
/// Otherwise passes the arguments after the first to [`run`]. The input is read through a buffer, and the output is flushed at
/// the end. An argument that is not UTF-8 makes no command, and missing memory for the arguments is an error; the
/// message of either is written before anything is read.
///
/// Its clause states which statuses there are. The effect of the arguments, the messages and the flush are proved of
/// the functions that it calls with the arguments. That it calls one of them once, with the arguments of this process,
/// is tested, since no clause can name them.
///
/// This is all that `main` does:
///
/// ```rattle
/// fn main(rt: HostRuntime) -> ExitCode {
///     ExitCode::from(run_process(&rt, &mut rt.stdin(), rt.stdout(), rt.stderr()))
/// }
/// ```
pub fn run_process<P, R, W, E>(process: &P, input: &mut R, output: W, errors: E) -> u8
where
    P: Env + AllocGlobal,
    R: Read ,
    W: Write ,
    E: Write , {
    let mut r = FromRead::new(Buffered::<&mut R, INPUT_BUFFER>::new(input));
    let mut out = FromWrite::new(output);
    let mut err = FromWrite::new(errors);
    match arguments(process) {
        Ok(args) => match information_of(&args) {
            Some(information) => conclude(
                print_information(information, &mut out),
                &r.failure(),
                &mut err,
            ),
            None => run_arguments(process.alloc(), &args, &mut r, &mut out, &mut err),
        },
        Err(fault) => conclude(Err(fault), &r.failure(), &mut err),
    }
}

// Returns the arguments of the process, the program's name first.
fn arguments<P: Env + AllocGlobal>(process: &P) -> Result<Vec<String>, Fault> {
    match env::args(process) {
        Ok(args) => Ok(args.collect(process.alloc())?),
        Err(error) => Err(argument_fault(error)),
    }
}

// Runs the command of these arguments, and flushes the output on success.
fn run_arguments<R: Source, W: Write, E: Sink>(
    alloc: Global,
    args: &[String],
    r: &mut R,
    out: &mut FromWrite<W>,
    err: &mut E,
) -> u8 {
    match words_after_name(alloc, args) {
        Ok(words) => match run(alloc, &words, r, out, err) {
            0 => conclude(flush(out), &r.failure(), err),
            status => status,
        },
        Err(AllocError) => conclude(Err(Fault::OutOfMemory), &r.failure(), err),
    }
}

pub(super) fn flush<W: Write>(out: &mut FromWrite<W>) -> Result<(), Fault> {
    match out.flush() {
        Ok(()) => Ok(()),
        Err(Failed) => Err(Fault::Digest(DigestError::WriteFailed)),
    }
}
