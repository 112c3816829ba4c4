//! The clock: processor time of this thread, which doesn't run while another program has the processor.

use std::ffi::{c_int, c_long};

#[repr(C)]
struct Time {
    seconds: c_long,
    nanoseconds: c_long,
}

extern "C" {
    fn clock_gettime(clock: c_int, time: *mut Time) -> c_int;
}

/// The thread's own clock, as Linux numbers it.
const THREAD: c_int = 3;

/// Nanoseconds of processor time so far.
pub fn now() -> f64 {
    let mut time = Time { seconds: 0, nanoseconds: 0 };
    // In bounds: on a 64-bit Linux the time is two longs.
    let failed = unsafe { clock_gettime(THREAD, &mut time) };
    assert_eq!(failed, 0, "the clock of the thread");
    time.seconds as f64 * 1e9 + time.nanoseconds as f64
}
