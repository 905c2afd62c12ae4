//! The processor time of this thread, which other work on the machine does not lengthen.

use std::ffi::{c_int, c_long};
use std::time::Duration;

#[repr(C)]
struct Time {
    seconds: c_long,
    nanoseconds: c_long,
}

extern "C" {
    fn clock_gettime(clock: c_int, time: *mut Time) -> c_int;
}

/// Linux's number of the clock of a thread's processor time.
const THREAD: c_int = 3;

pub fn processor_time() -> Duration {
    let mut time = Time { seconds: 0, nanoseconds: 0 };
    let answer = unsafe { clock_gettime(THREAD, &mut time) };
    assert_eq!(answer, 0, "a thread has a clock");
    Duration::new(time.seconds as u64, time.nanoseconds as u32)
}
