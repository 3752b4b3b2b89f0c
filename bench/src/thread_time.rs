//! How long this thread has had a processor. Unlike the time of day it does not count what other programs take.
#![allow(unsafe_code)]

use std::os::raw::{c_int, c_long};
use std::time::Duration;

/// `struct timespec` of Linux on a processor of 64 bits.
#[repr(C)]
struct Timespec {
    seconds: c_long,
    nanoseconds: c_long,
}

/// From Linux's `time.h`.
const CLOCK_THREAD_CPUTIME_ID: c_int = 3;

extern "C" {
    fn clock_gettime(clock: c_int, time: *mut Timespec) -> c_int;
}

pub fn now() -> Duration {
    let mut time = Timespec { seconds: 0, nanoseconds: 0 };
    // SAFETY: the C library writes one timespec, whose layout this is, and keeps no pointer to it.
    let status = unsafe { clock_gettime(CLOCK_THREAD_CPUTIME_ID, &mut time) };
    assert_eq!(status, 0, "the thread's time cannot be read");
    Duration::new(time.seconds as u64, time.nanoseconds as u32)
}
