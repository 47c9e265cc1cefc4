//! The clock of the measurements in this process.

use std::ffi::c_int;

/// As Linux has it on machines of 64 bits.
#[repr(C)]
struct Time {
    seconds: i64,
    nanoseconds: i64,
}

const THREAD_TIME: c_int = 3;

extern "C" {
    fn clock_gettime(clock: c_int, time: *mut Time) -> c_int;
}

/// For how long this thread has run. Unlike the time of day it does not
/// advance while something else has the processor.
pub fn thread_seconds() -> f64 {
    let mut time = Time { seconds: 0, nanoseconds: 0 };
    // The call writes one such struct and keeps nothing of it.
    let status = unsafe { clock_gettime(THREAD_TIME, &mut time) };
    assert_eq!(status, 0, "Linux has a clock for each thread");
    time.seconds as f64 + time.nanoseconds as f64 * 1e-9
}
