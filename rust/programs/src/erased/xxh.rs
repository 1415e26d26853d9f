// SPDX-License-Identifier: MIT
// crates/xxh/src/main.rt without its contracts, written by rust/erase --programs: change that file.

//! The program `xxh`: hashes standard input as its arguments command.

use crate::rattle::prelude::HostRuntime;
use crate::rattle::process::ExitCode;
use crate::programs::xxh_program::program::run_process;

/// Runs the program over the process's arguments and streams, and returns its exit status.
pub fn main(rt: HostRuntime) -> ExitCode {
    ExitCode::from(run_process(&rt, &mut rt.stdin(), rt.stdout(), rt.stderr()))
}
