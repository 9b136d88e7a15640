//! The processor time of this thread: what other processes take meanwhile is
//! not in it.

#![allow(unsafe_code)]

use std::ffi::{c_int, c_long};

/// Linux's number of the clock.
const THREAD_PROCESSOR_TIME: c_int = 3;

const NANOSECONDS: f64 = 1e9;

#[repr(C)]
struct Moment {
    seconds: i64,
    nanoseconds: c_long,
}

unsafe extern "C" {
    fn clock_gettime(clock: c_int, moment: *mut Moment) -> c_int;
}

/// Nanoseconds since some moment.
pub fn now() -> f64 {
    let mut moment = Moment { seconds: 0, nanoseconds: 0 };
    // SAFETY: the function writes one moment, laid out as on Linux with 64
    // bits, to where the pointer leads, and keeps no pointer.
    let status = unsafe { clock_gettime(THREAD_PROCESSOR_TIME, &mut moment) };
    assert_eq!(status, 0, "the thread's clock");
    moment.seconds as f64 * NANOSECONDS + moment.nanoseconds as f64
}
