//! What is called through C: the proved engine, and the clock of a thread.
//!
//! The archive is called by the crate's own file, so that what is measured and
//! compared here is what the crate's users call. This file and that one have all
//! the unsafe code.

#![allow(unsafe_code)]

#[path = "../../marshtrundle/src/archive.rs"]
mod archive;

pub use archive::*;

#[link(name = "marshtrundle", kind = "static")]
extern "C" {}

/// The words that a work list of a run in steps has at least.
pub const WORK_WORDS: usize = 80 * 4_096;

/// The processor time that this thread has had, in seconds. Time in which other
/// programs have the core is not in it. Where there is no such clock it is the
/// time of day.
pub fn processor_time() -> f64 {
    clock::read()
}

#[cfg(all(target_os = "linux", target_pointer_width = "64"))]
mod clock {
    #[repr(C)]
    struct Moment {
        seconds: i64,
        nanoseconds: i64,
    }

    extern "C" {
        fn clock_gettime(clock: i32, moment: *mut Moment) -> i32;
    }

    /// CLOCK_THREAD_CPUTIME_ID.
    const OF_THE_THREAD: i32 = 3;

    pub fn read() -> f64 {
        let mut moment = Moment {
            seconds: 0,
            nanoseconds: 0,
        };
        // The pointer is to a local of the form that the function writes.
        let answer = unsafe { clock_gettime(OF_THE_THREAD, &mut moment) };
        assert_eq!(answer, 0, "the clock of a thread can be read");
        moment.seconds as f64 + 1e-9 * moment.nanoseconds as f64
    }
}

#[cfg(not(all(target_os = "linux", target_pointer_width = "64")))]
mod clock {
    use std::time::SystemTime;

    pub fn read() -> f64 {
        SystemTime::now()
            .duration_since(SystemTime::UNIX_EPOCH)
            .map_or(0.0, |since| since.as_secs_f64())
    }
}
