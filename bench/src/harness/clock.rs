//! The processor time of this thread. Time that other processes take on a shared machine is not in it.

use std::ffi::{c_int, c_long};

#[repr(C)]
#[derive(Default)]
struct Timespec {
    seconds: c_long,
    nanoseconds: c_long,
}

// The number is Linux's.
const CLOCK_THREAD_CPUTIME_ID: c_int = 3;

extern "C" {
    fn clock_gettime(clock: c_int, time: *mut Timespec) -> c_int;
}

pub fn nanoseconds() -> f64 {
    let mut time = Timespec::default();
    // SAFETY: the time is written in the call and lent for no longer.
    let answer = unsafe { clock_gettime(CLOCK_THREAD_CPUTIME_ID, &mut time) };
    assert_eq!(answer, 0, "no clock for the thread's processor time");
    time.seconds as f64 * 1e9 + time.nanoseconds as f64
}
