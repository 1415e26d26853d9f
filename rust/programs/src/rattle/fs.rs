// SPDX-License-Identifier: MIT
//! Files and directories.

pub use std::fs::Metadata;

use super::io::{Error, ErrorKind, Read, Result};

/// A process with files.
pub trait Files {
    /// An open file.
    type File: Read;
    /// An open directory. Its reads return the names in it, each with a NUL at its end, and none ends within a name.
    type Dir: Read;

    /// "The file of this name, opened to be read; or the system's error."
    fn open_file(&self, path: &str) -> Result<Self::File>;

    /// "The folder of this name; or the system's error."
    fn open_dir(&self, path: &str) -> Result<Self::Dir>;

    /// "What the system says of the file that the name leads to."
    fn metadata(&self, path: &str) -> Result<Metadata>;

    /// "What the system says of the name, which may be a link."
    fn symlink_metadata(&self, path: &str) -> Result<Metadata>;
}

/// [`Files::open_file`].
pub fn open<P: Files>(process: &P, path: &str) -> Result<P::File> {
    process.open_file(path)
}

/// [`Files::metadata`].
pub fn metadata<P: Files>(process: &P, path: &str) -> Result<Metadata> {
    process.metadata(path)
}

/// [`Files::symlink_metadata`].
pub fn symlink_metadata<P: Files>(process: &P, path: &str) -> Result<Metadata> {
    process.symlink_metadata(path)
}

/// Rust's library copies paths below this length to the stack.
const ON_STACK: usize = 384;

/// Calls a function of Rust's library with a path. That function copies a long path into allocated memory, and stops
/// the process if there is none. So the same memory is allocated here first, with an error if it is refused: a process
/// of one thread gets again what it has just freed.
pub fn with_memory_for<'a, T>(path: &'a str, call: impl FnOnce(&'a str) -> Result<T>) -> Result<T> {
    if path.len() >= ON_STACK {
        let mut probe = std::vec::Vec::<u8>::new();
        let asked = probe.try_reserve_exact(path.len() + 1);
        asked.map_err(|_| ErrorKind::OutOfMemory)?;
    }
    call(path).map_err(as_of_posix)
}

/// Windows has another error number if a directory of the path is missing than if the file is. The programs use
/// `ENOENT`.
fn as_of_posix(error: Error) -> Error {
    const ENOENT: i32 = 2;
    if cfg!(windows) && error.kind() == ErrorKind::NotFound {
        return Error::from_raw_os_error(ENOENT);
    }
    error
}

#[cfg(all(target_os = "linux", not(twox_programs_read_dir)))]
mod dir {
    //! Directories by the system's own call, which needs no memory.

    use core::ffi::{c_int, c_long};
    use std::fs::{File, OpenOptions};
    use std::os::fd::AsRawFd;
    use std::os::unix::fs::OpenOptionsExt;

    use crate::rattle::io::{Error, Read, Result};

    /// The number of the call `getdents64`. Processors that Linux supports since 2009 share one.
    const GETDENTS64: c_long = if cfg!(any(target_arch = "x86_64", target_arch = "arm")) {
        217
    } else if cfg!(any(
        target_arch = "x86",
        target_arch = "m68k",
        target_arch = "s390x"
    )) {
        220
    } else if cfg!(any(target_arch = "powerpc", target_arch = "powerpc64")) {
        202
    } else if cfg!(any(target_arch = "sparc", target_arch = "sparc64")) {
        154
    } else if cfg!(any(target_arch = "mips", target_arch = "mips32r6")) {
        4219
    } else if cfg!(any(target_arch = "mips64", target_arch = "mips64r6")) {
        5308
    } else {
        61
    };

    /// The flag that refuses everything except directories.
    const O_DIRECTORY: c_int = if cfg!(any(
        target_arch = "aarch64",
        target_arch = "arm",
        target_arch = "m68k",
        target_arch = "powerpc",
        target_arch = "powerpc64"
    )) {
        0o40_000
    } else {
        0o200_000
    };

    extern "C" {
        fn syscall(number: c_long, ...) -> c_long;
    }

    /// An open directory.
    pub struct Dir(File);

    // The records of one call, aligned as the system writes them.
    #[repr(align(8))]
    struct Records([u8; 32768]);

    // The offset of a record's length, and of its name.
    const LENGTH: usize = 16;
    const NAME: usize = 19;

    impl Dir {
        /// Opens a directory.
        pub fn open(path: &str) -> Result<Dir> {
            let folder = OpenOptions::new()
                .read(true)
                .custom_flags(O_DIRECTORY)
                .open(path)?;
            Ok(Dir(folder))
        }
    }

    impl Read for Dir {
        fn read(&mut self, buf: &mut [u8]) -> Result<usize> {
            let mut records = Records([0; 32768]);
            // The names have fewer bytes than their records, so they fit the buffer.
            let room = buf.len().min(records.0.len());
            // SAFETY: the call writes at most `room` bytes there.
            let count =
                unsafe { syscall(GETDENTS64, self.0.as_raw_fd(), records.0.as_mut_ptr(), room) };
            let count = usize::try_from(count).map_err(|_| Error::last_os_error())?;
            Ok(copy_names(records.0.get(..count).unwrap_or(&[]), buf))
        }
    }

    /// Copies the names of the records to the buffer, which is at least as long as the records. Returns their length.
    fn copy_names(records: &[u8], buf: &mut [u8]) -> usize {
        let (mut rest, mut len) = (records, 0);
        while let Some((name, others)) = first_name(rest) {
            buf[len..len + name.len()].copy_from_slice(name);
            len += name.len();
            rest = others;
        }
        len
    }

    /// Returns the name of the first record with its NUL, and the records after it.
    fn first_name(records: &[u8]) -> Option<(&[u8], &[u8])> {
        let length = u16::from_ne_bytes(*records.get(LENGTH..)?.first_chunk()?);
        let name = records.get(NAME..usize::from(length))?;
        let end = name.iter().position(|byte| *byte == 0)?;
        Some((&name[..=end], &records[usize::from(length)..]))
    }

    #[cfg(test)]
    mod tests {
        use super::*;

        /// Returns a record as the system writes it: an inode, an offset, the length, a type, and a name with a NUL,
        /// padded to a multiple of 8.
        fn record(inode: u64, kind: u8, name: &[u8]) -> std::vec::Vec<u8> {
            let length = (NAME + name.len() + 1).next_multiple_of(8);
            let mut record = std::vec::Vec::from(inode.to_ne_bytes());
            record.extend(u64::MAX.to_ne_bytes());
            record.extend(u16::try_from(length).unwrap().to_ne_bytes());
            record.push(kind);
            record.extend(name);
            record.resize(length, 0);
            record
        }

        /// File systems that don't know a type or an inode write 0.
        #[test]
        fn a_name_counts_whatever_its_type_and_inode_are() {
            let mut records = std::vec::Vec::new();
            let mut names = std::vec::Vec::new();
            for (inode, kind, length) in [
                (1, 8, 1),
                (0, 8, 2),
                (2, 0, 3),
                (0, 0, 4),
                (3, 255, 236),
                (u64::MAX, 4, 237),
                (4, 10, 255),
                (5, 8, 5),
            ] {
                let name = std::vec![b'n'; length];
                records.extend(record(inode, kind, &name));
                names.extend(name);
                names.push(0);
            }
            let mut buf = std::vec![0; records.len()];
            let len = copy_names(&records, &mut buf);
            assert_eq!(buf[..len], names);
        }
    }
}

#[cfg(any(not(target_os = "linux"), twox_programs_read_dir))]
mod dir {
    //! Directories by Rust's library, which ends a directory at an error as if it had no more names. So all names are
    //! read when a directory is opened, again if a signal interrupts that, and after an error none is open.

    use std::fs::ReadDir;
    use std::panic::{catch_unwind, set_hook, take_hook, AssertUnwindSafe};

    use crate::rattle::io::{ErrorKind, Read, Result};

    /// The names of a directory, each with a NUL at its end.
    pub struct Dir {
        names: std::vec::Vec<u8>,
        // The length of the names that were read.
        read: usize,
    }

    impl Dir {
        /// Opens a directory.
        pub fn open(path: &str) -> Result<Dir> {
            loop {
                match names_in(path) {
                    Err(error) if error.kind() == ErrorKind::Interrupted => {}
                    names => {
                        return Ok(Dir {
                            names: names?,
                            read: 0,
                        })
                    }
                }
            }
        }
    }

    impl Read for Dir {
        fn read(&mut self, buf: &mut [u8]) -> Result<usize> {
            let rest = &self.names[self.read..];
            let most = &rest[..rest.len().min(buf.len())];
            let Some(end) = most.iter().rposition(|byte| *byte == 0) else {
                return if rest.is_empty() {
                    Ok(0)
                } else {
                    Err(ErrorKind::InvalidInput.into())
                };
            };
            buf[..=end].copy_from_slice(&most[..=end]);
            self.read += end + 1;
            Ok(end + 1)
        }
    }

    /// An open directory.
    struct Entries(Option<ReadDir>);

    impl Drop for Entries {
        /// Closes the directory. If that fails, Rust's library panics, but all names are known.
        fn drop(&mut self) {
            let hook = take_hook();
            set_hook(Box::new(|_| {}));
            let _ = catch_unwind(AssertUnwindSafe(|| drop(self.0.take())));
            set_hook(hook);
        }
    }

    /// Returns the names in a directory.
    fn names_in(path: &str) -> Result<std::vec::Vec<u8>> {
        let mut entries = Entries(Some(std::fs::read_dir(path)?));
        let mut names = std::vec::Vec::new();
        for entry in entries.0.iter_mut().flatten() {
            let name = entry?.file_name();
            let name = name.as_encoded_bytes();
            let is_room = names.try_reserve(name.len() + 1);
            is_room.map_err(|_| ErrorKind::OutOfMemory)?;
            names.extend_from_slice(name);
            names.push(0);
        }
        Ok(names)
    }
}

pub use dir::Dir;

#[cfg(test)]
mod tests {
    use super::*;

    /// Returns the names in a directory, read with a buffer of this size.
    fn names_in(path: &str, size: usize) -> std::vec::Vec<std::vec::Vec<u8>> {
        let (mut folder, mut buf, mut names) = (Dir::open(path).unwrap(), vec![0; size], vec![]);
        loop {
            match folder.read(&mut buf).unwrap() {
                0 => break,
                count => {
                    assert_eq!(buf[count - 1], 0, "a read ends within a name");
                    names.extend(
                        buf[..count - 1]
                            .split(|byte| *byte == 0)
                            .map(<[u8]>::to_vec),
                    );
                }
            }
        }
        names.retain(|name| name != b"." && name != b"..");
        names.sort();
        names
    }

    #[test]
    fn a_folder_has_the_names_of_its_files() {
        let path = std::env::temp_dir().join(format!("twox-programs-{}", std::process::id()));
        std::fs::create_dir(&path).unwrap();
        let mut wanted: std::vec::Vec<_> = (0..3000)
            .map(|number| format!("{number:04}-{}", "n".repeat(number % 251)))
            .collect();
        for name in &wanted {
            std::fs::write(path.join(name), "").unwrap();
        }
        wanted.sort();
        for size in [320, 4096, 32768, 100_000] {
            let found = names_in(path.to_str().unwrap(), size);
            assert!(
                found
                    .iter()
                    .map(|name| name.as_slice())
                    .eq(wanted.iter().map(|name| name.as_bytes())),
                "{size}"
            );
        }
        assert!(Dir::open(path.join(&wanted[0]).to_str().unwrap()).is_err());
        std::fs::remove_dir_all(&path).unwrap();
    }
}
