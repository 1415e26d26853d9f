// SPDX-License-Identifier: MIT
// crates/xxhsum/src/main.rt without its contracts, written by rust/erase --programs: change that file.

//! `xxhsum` prints and checks digests of files. docs/XXHSUM.md lists what is proved.

use crate::rattle::prelude::HostRuntime;
use crate::rattle::io::IsTerminal;
use crate::rattle::process::ExitCode;
use crate::rattle::rt::Env;
use crate::programs::xxh_io::from_write::FromWrite;
use crate::programs::xxhsum_app::run::run;
use crate::programs::xxhsum_fs::calls::{Process, Reads};
use crate::programs::xxhsum_fs::system::SystemFiles;
use crate::programs::xxhsum_fs::uninterrupted::Uninterrupted;
use crate::programs::xxhsum_output::messages::Messages;
use crate::programs::xxhsum_output::visible::Visible;
use crate::programs::xxhsum_output::whole_lines::WholeLines;
use crate::programs::xxhsum_program::arguments::ProcessArguments;
use crate::programs::xxhsum_program::process::{Console, Interactive};
use crate::programs::xxhsum_program::streams::Streams;
use crate::programs::xxhsum_program::terminal::Terminal;

/// Passes the process's arguments, files and streams to the program, and returns its exit status.
pub fn main(rt: HostRuntime) -> ExitCode {
    let (shows_output, shows_errors) = (rt.stdout().is_terminal(), rt.stderr().is_terminal());
    let console = Console {
        input: Uninterrupted::new(Reads::new(rt.stdin())),
        interactive: Interactive {
            input: rt.stdin().is_terminal(),
            errors: shows_errors && !is_dumb(&rt),
        },
        terminal: Terminal::new(rt.stderr(), &rt),
    };
    // On a terminal control characters are made visible, and each line is written at once. Each message is one write.
    let output = Visible::new(FromWrite::new(rt.stdout()), shows_output);
    let messages = Messages::new(WholeLines::new(FromWrite::new(rt.stderr()), true));
    let mut streams = Streams::new(
        WholeLines::new(output, !shows_output),
        Visible::new(messages, shows_errors),
    );
    ExitCode::from(run(
        rt.alloc(),
        &ProcessArguments::new(&rt),
        &SystemFiles::new(&Process::new(&rt)),
        console,
        &mut streams,
    ))
}

// True if the terminal has no control sequences, by the environment variable `TERM`.
fn is_dumb<P: Env>(process: &P) -> bool {
    let mut term = [0; 4];
    match process.var("TERM", &mut term) {
        Ok(4) => term == *b"dumb",
        _ => false,
    }
}
