// SPDX-License-Identifier: MIT
//! Start and end of the programs.

#[cfg(unix)]
use core::ffi::{c_char, CStr};

#[cfg(unix)]
use super::rt::HostRuntime;

/// An exit status.
#[derive(Clone, Copy, Debug, PartialEq, Eq)]
pub struct ExitCode(u8);

impl From<u8> for ExitCode {
    fn from(status: u8) -> ExitCode {
        ExitCode(status)
    }
}

impl ExitCode {
    /// Returns the exit status of the process.
    pub fn status(self) -> u8 {
        self.0
    }
}

/// The arguments in the memory that C's `main` received. Nothing is copied, so they need no memory.
#[cfg(unix)]
#[derive(Clone, Copy)]
pub struct Arguments {
    count: usize,
    first: *const *const c_char,
}

#[cfg(unix)]
impl Arguments {
    /// # Safety
    ///
    /// `first` points to `count` strings, each with a NUL at its end, which don't change while the process runs.
    pub unsafe fn new(count: usize, first: *const *const c_char) -> Self {
        Arguments { count, first }
    }

    /// Returns the argument of this index.
    pub fn get(&self, index: usize) -> Option<&[u8]> {
        if index >= self.count {
            return None;
        }
        // SAFETY: the caller of `new` promised this many strings.
        Some(unsafe { CStr::from_ptr(*self.first.add(index)) }.to_bytes())
    }
}

/// The arguments from Rust's library. On Windows their bytes are WTF-8.
#[cfg(not(unix))]
#[derive(Clone, Copy)]
pub struct Arguments(&'static [std::ffi::OsString]);

#[cfg(not(unix))]
impl Arguments {
    /// Returns those of this process. The first is a path with `/`, and on Windows without `.exe`: the name at its end
    /// determines what the program does.
    pub fn of_process() -> Self {
        let mut arguments: std::vec::Vec<_> = std::env::args_os().collect();
        if let Some(first) = arguments.first_mut().filter(|_| cfg!(windows)) {
            let path = first.to_string_lossy().replace('\\', "/");
            *first = path.strip_suffix(".exe").unwrap_or(&path).into();
        }
        Arguments(arguments.leak())
    }

    /// Returns the argument of this index.
    pub fn get(&self, index: usize) -> Option<&[u8]> {
        self.0
            .get(index)
            .map(|argument| argument.as_encoded_bytes())
    }
}

/// Runs a program without the startup code of Rust's library. That opens /dev/null instead of a closed stream, so
/// writes to it would seem to succeed.
///
/// # Safety
///
/// The arguments are those of C's `main`.
#[cfg(unix)]
pub unsafe fn run(argc: i32, argv: *const *const c_char, main: fn(HostRuntime) -> ExitCode) -> i32 {
    const SIGPIPE: i32 = 13;
    // SAFETY: it changes no memory of the process. A write to a pipe without a reader then fails instead of ending the
    // process.
    unsafe { signal(SIGPIPE, SIG_IGN) };
    progress_line::clear_at_signals();
    // SAFETY: these are the arguments of C's `main`.
    let arguments = unsafe { Arguments::new(usize::try_from(argc).unwrap_or(0), argv) };
    i32::from(main(HostRuntime::new(arguments)).status())
}

#[cfg(unix)]
const SIG_IGN: usize = 1;

#[cfg(unix)]
extern "C" {
    fn signal(number: i32, handler: usize) -> usize;
}

#[cfg(unix)]
pub(super) mod progress_line {
    //! A progress line, which ends with a carriage return, is cleared if a signal ends the program.

    use core::ffi::c_void;
    use std::io::IsTerminal;
    use std::sync::atomic::{AtomicBool, Ordering};

    use super::{signal, SIG_IGN};

    const SIG_DFL: usize = 0;
    const SIGINT: i32 = 2;
    const SIGTERM: i32 = 15;
    // A carriage return, and the control sequence that erases the line from there on.
    const CLEARED: &[u8] = b"\r\x1b[K";

    static IS_SHOWN: AtomicBool = AtomicBool::new(false);

    extern "C" {
        fn raise(number: i32) -> i32;
        fn write(descriptor: i32, bytes: *const c_void, size: usize) -> isize;
    }

    /// Remembers if the last bytes that were written are a progress line.
    pub fn note(bytes: &[u8]) {
        IS_SHOWN.store(bytes.ends_with(b"\r"), Ordering::Relaxed);
    }

    /// Clears the line at the signals by which users end programs, unless they are ignored.
    pub fn clear_at_signals() {
        if !std::io::stderr().is_terminal() {
            return;
        }
        for number in [SIGINT, SIGTERM] {
            // SAFETY: the handler only calls functions that a handler may call.
            unsafe {
                if signal(number, end as extern "C" fn(i32) as usize) == SIG_IGN {
                    signal(number, SIG_IGN);
                }
            }
        }
    }

    extern "C" fn end(number: i32) {
        // SAFETY: these functions may be called by a handler, and `write` reads the bytes of `CLEARED`.
        unsafe {
            if IS_SHOWN.load(Ordering::Relaxed) {
                write(2, CLEARED.as_ptr().cast(), CLEARED.len());
            }
            signal(number, SIG_DFL);
            raise(number);
        }
    }
}

/// Defines `main`: C's on a Unix, and otherwise Rust's.
#[macro_export]
macro_rules! program {
    ($main:path) => {
        #[cfg(unix)]
        #[no_mangle]
        extern "C" fn main(argc: i32, argv: *const *const core::ffi::c_char) -> i32 {
            // SAFETY: the C library calls it with the arguments of the process.
            unsafe { $crate::rattle::process::run(argc, argv, $main) }
        }

        #[cfg(not(unix))]
        fn main() -> std::process::ExitCode {
            let arguments = $crate::rattle::process::Arguments::of_process();
            let process = $crate::rattle::rt::HostRuntime::new(arguments);
            std::process::ExitCode::from($main(process).status())
        }
    };
}
