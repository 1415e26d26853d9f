// SPDX-License-Identifier: MIT
//! The arguments of the process: as texts, if each is UTF-8, and as bytes.

use super::io::{ErrorKind, Result as IoResult};
use super::vec::{String, Vec};
use super::{AllocError, Global};

/// The error for an argument that isn't copied.
#[derive(Clone, Copy, Debug, PartialEq, Eq)]
pub enum FillError {
    /// There is no argument of this index.
    NotPresent,
    /// It is longer than the buffer.
    TooLong,
}

/// A process with arguments and environment variables.
pub trait Env {
    /// Returns the argument of this index, the program's name first.
    fn argument(&self, index: usize) -> Option<&[u8]>;

    /// "Copies the argument of this index to the front of `buf`, and returns its length." It returns `NotPresent` if there is
    /// none, and `TooLong` if it is longer than `buf`.
    fn arg(&self, index: usize, buf: &mut [u8]) -> Result<usize, FillError> {
        let bytes = self.argument(index).ok_or(FillError::NotPresent)?;
        let front = buf.get_mut(..bytes.len()).ok_or(FillError::TooLong)?;
        front.copy_from_slice(bytes);
        Ok(bytes.len())
    }

    /// "Copies the value of an environment variable to the front of `buf`, and returns its length." It returns
    /// `NotPresent` if there is none, and `TooLong` if it is longer than `buf`.
    fn var(&self, name: &str, buf: &mut [u8]) -> Result<usize, FillError> {
        let bytes = variable(name).ok_or(FillError::NotPresent)?;
        let front = buf.get_mut(..bytes.len()).ok_or(FillError::TooLong)?;
        front.copy_from_slice(bytes);
        Ok(bytes.len())
    }
}

/// Returns the value of an environment variable, whose name has at most 31 bytes. Rust's library copies it to allocated
/// memory.
#[cfg(unix)]
fn variable(name: &str) -> Option<&'static [u8]> {
    use core::ffi::{c_char, CStr};
    extern "C" {
        fn getenv(name: *const c_char) -> *const c_char;
    }
    let mut text = [0; 32];
    text[..31]
        .get_mut(..name.len())?
        .copy_from_slice(name.as_bytes());
    // SAFETY: the name has a NUL at its end, and nothing changes the environment.
    unsafe {
        let value = getenv(text.as_ptr().cast());
        (!value.is_null()).then(|| CStr::from_ptr(value).to_bytes())
    }
}

/// The programs read variables only for terminals, and have none on other systems.
#[cfg(not(unix))]
fn variable(_name: &str) -> Option<&'static [u8]> {
    None
}

/// The arguments as texts.
pub struct Args<'a, P>(&'a P);

/// "`Ok` if each argument is UTF-8, and else an error of the kind `InvalidData`."
pub fn args<P: Env>(process: &P) -> IoResult<Args<'_, P>> {
    let mut index = 0;
    while let Some(argument) = process.argument(index) {
        std::str::from_utf8(argument).map_err(|_| ErrorKind::InvalidData)?;
        index += 1;
    }
    Ok(Args(process))
}

impl<P: Env> Args<'_, P> {
    /// "`Ok` of the arguments, or `Err` if an allocation failed."
    pub fn collect(self, alloc: Global) -> Result<Vec<String>, AllocError> {
        let mut texts = Vec::new(alloc);
        while let Some(argument) = self.0.argument(texts.len()) {
            let Ok(text) = std::str::from_utf8(argument) else {
                break;
            };
            texts.push(String::from_str(alloc, text)?)?;
        }
        Ok(texts)
    }
}
