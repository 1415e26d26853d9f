// SPDX-License-Identifier: MIT
//! The standard streams: values that are copied, without buffers, which fail if the process was started without them.
//!
//! On a Unix each call reads or writes the descriptor itself. Those of Rust's library have buffers, and treat a closed
//! stream as one that accepts everything.

use std::fmt;
pub use std::io::{Error, ErrorKind, Read, Result, Write};

#[cfg(unix)]
use super::process::progress_line;

/// The text of an error: "the system's message, and ` (os error N)`". That of Rust's library is the same, but allocates
/// memory, and stops the process if there is none.
pub struct Shown<'a>(pub &'a Error);

impl fmt::Display for Shown<'_> {
    #[cfg(unix)]
    fn fmt(&self, f: &mut fmt::Formatter<'_>) -> fmt::Result {
        let Some(code) = self.0.raw_os_error() else {
            return self.0.fmt(f);
        };
        let mut room = [0; 256];
        write!(f, "{} (os error {code})", message_of(code, &mut room))
    }

    // Windows has its messages in the language of the user. These are POSIX's, or otherwise Rust's.
    #[cfg(not(unix))]
    fn fmt(&self, f: &mut fmt::Formatter<'_>) -> fmt::Result {
        match self.0.kind() {
            ErrorKind::NotFound => f.write_str("No such file or directory"),
            ErrorKind::PermissionDenied => f.write_str("Permission denied"),
            kind => kind.fmt(f),
        }
    }
}

/// Returns the system's message for an error of this number.
#[cfg(unix)]
fn message_of(code: i32, room: &mut [u8; 256]) -> &str {
    use core::ffi::{c_char, c_int, CStr};
    extern "C" {
        // The function of POSIX. glibc has another one under its name.
        #[cfg_attr(
            all(target_os = "linux", target_env = "gnu"),
            link_name = "__xpg_strerror_r"
        )]
        fn strerror_r(number: c_int, text: *mut c_char, size: usize) -> c_int;
    }
    // SAFETY: it writes at most `room.len()` bytes there.
    unsafe { strerror_r(code, room.as_mut_ptr().cast(), room.len()) };
    let text = CStr::from_bytes_until_nul(room).unwrap_or_default();
    text.to_str().unwrap_or("unknown error")
}

/// A stream that may be a terminal.
pub trait IsTerminal {
    /// "True if it is a terminal."
    fn is_terminal(&self) -> bool;
}

/// Standard input.
#[derive(Clone, Copy)]
pub struct Stdin;

/// Standard output.
#[derive(Clone, Copy)]
pub struct Stdout;

/// Standard error.
#[derive(Clone, Copy)]
pub struct Stderr;

#[cfg(unix)]
mod streams {
    use std::fs::File;
    use std::mem::ManuallyDrop;
    use std::os::fd::FromRawFd;

    /// Defines access to the stream of a descriptor.
    macro_rules! stream {
        ($name:ident, $descriptor:literal) => {
            impl super::$name {
                pub(super) fn inner(self) -> ManuallyDrop<File> {
                    // SAFETY: the descriptor is never closed, since `ManuallyDrop` doesn't drop the file. If it was closed
                    // when the process was started, each call of the file is an error of the system.
                    ManuallyDrop::new(unsafe { File::from_raw_fd($descriptor) })
                }
            }
        };
    }

    stream!(Stdin, 0);
    stream!(Stdout, 1);
    stream!(Stderr, 2);
}

#[cfg(not(unix))]
mod streams {
    /// Defines access to a stream of Rust's library.
    macro_rules! stream {
        ($name:ident, $function:ident) => {
            impl super::$name {
                pub(super) fn inner(self) -> std::io::$name {
                    std::io::$function()
                }
            }
        };
    }

    stream!(Stdin, stdin);
    stream!(Stdout, stdout);
    stream!(Stderr, stderr);
}

impl Read for Stdin {
    /// "`Ok` of how many bytes were read to the front of `buf`, 0 at the end; or `Err`, and none was read."
    fn read(&mut self, buf: &mut [u8]) -> Result<usize> {
        self.inner().read(buf)
    }
}

/// Defines the calls of an output stream.
macro_rules! output {
    ($($name:ident),*) => {$(
        impl Write for $name {
            /// "`Ok` of how many bytes of the front were written, or `Err`, and none was."
            #[cfg(unix)]
            fn write(&mut self, bytes: &[u8]) -> Result<usize> {
                progress_line::note(bytes);
                self.inner().write(bytes)
            }

            // The stream of Rust's library has a buffer, which is written at once so that an error is this call's.
            #[cfg(not(unix))]
            fn write(&mut self, bytes: &[u8]) -> Result<usize> {
                let mut inner = self.inner();
                inner.write_all(bytes)?;
                inner.flush()?;
                Ok(bytes.len())
            }

            /// No bytes are buffered.
            fn flush(&mut self) -> Result<()> {
                Ok(())
            }
        }
    )*};
}

output!(Stdout, Stderr);

/// Defines the test for a terminal.
macro_rules! is_terminal {
    ($($name:ident),*) => {$(
        impl IsTerminal for $name {
            #[cfg(unix)]
            fn is_terminal(&self) -> bool {
                std::io::IsTerminal::is_terminal(&*self.inner())
            }

            // Progress is written with escapes, which a console of Windows may display as they are.
            #[cfg(not(unix))]
            fn is_terminal(&self) -> bool {
                cfg!(not(windows)) && std::io::IsTerminal::is_terminal(&self.inner())
            }
        }
    )*};
}

is_terminal!(Stdin, Stdout, Stderr);

#[cfg(test)]
mod tests {
    use super::*;

    #[test]
    fn errors_have_the_text_of_the_library() {
        for code in 0..200 {
            let error = Error::from_raw_os_error(code);
            assert_eq!(Shown(&error).to_string(), error.to_string());
        }
        let error = Error::from(ErrorKind::OutOfMemory);
        assert_eq!(Shown(&error).to_string(), "out of memory");
    }
}
