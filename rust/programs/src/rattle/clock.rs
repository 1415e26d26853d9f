// SPDX-License-Identifier: MIT
//! The clock of the process. That of Rust's library panics if the system refuses the time.

use std::time::Duration;

use super::io::Result;

/// A clock.
pub trait Clock {
    /// "The time since some start, which never goes back; or the system's error."
    fn monotonic(&self) -> Result<Duration>;
}

/// Returns the time since some start.
#[cfg(target_os = "linux")]
pub fn monotonic() -> Result<Duration> {
    use core::ffi::{c_int, c_long};
    use std::io::{Error, ErrorKind};

    #[repr(C)]
    struct Time {
        seconds: c_long,
        nanoseconds: c_long,
    }
    extern "C" {
        fn clock_gettime(clock: c_int, time: *mut Time) -> c_int;
    }
    const CLOCK_MONOTONIC: c_int = 1;
    let mut time = Time {
        seconds: 0,
        nanoseconds: 0,
    };
    // SAFETY: it writes one record, which has these fields in C.
    if unsafe { clock_gettime(CLOCK_MONOTONIC, &mut time) } != 0 {
        return Err(Error::last_os_error());
    }
    match (u64::try_from(time.seconds), u32::try_from(time.nanoseconds)) {
        (Ok(seconds), Ok(nanoseconds)) => Ok(Duration::new(seconds, nanoseconds)),
        _ => Err(ErrorKind::InvalidData.into()),
    }
}

/// Returns the time since the first call.
#[cfg(not(target_os = "linux"))]
pub fn monotonic() -> Result<Duration> {
    use std::sync::OnceLock;
    use std::time::Instant;

    static START: OnceLock<Instant> = OnceLock::new();
    Ok(START.get_or_init(Instant::now).elapsed())
}

#[cfg(test)]
mod tests {
    use super::*;

    #[test]
    fn time_goes_on() {
        let before = monotonic().unwrap();
        std::thread::sleep(Duration::from_millis(20));
        let passed = monotonic().unwrap() - before;
        assert!(passed >= Duration::from_millis(20) && passed < Duration::from_secs(20));
    }
}
