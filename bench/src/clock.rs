//! The processor time of a thread. What other programs take of a shared machine is not in it.

use std::ffi::{c_int, c_long};

/// The clock of the calling thread's processor time, on Linux.
const THREAD: c_int = 3;

/// C's `struct timespec`.
#[repr(C)]
struct Time {
    seconds: c_long,
    nanoseconds: c_long,
}

extern "C" {
    fn clock_gettime(clock: c_int, time: *mut Time) -> c_int;
}

/// Nanoseconds that the calling thread has run.
fn now() -> f64 {
    let mut time = Time {
        seconds: 0,
        nanoseconds: 0,
    };
    let failed = unsafe { clock_gettime(THREAD, &mut time) };
    assert_eq!(failed, 0, "no clock of the thread's time");
    1e9 * time.seconds as f64 + time.nanoseconds as f64
}

/// The processor time that a function takes, in nanoseconds.
pub fn taken(function: impl FnOnce()) -> f64 {
    let start = now();
    function();
    now() - start
}
