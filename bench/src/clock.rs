//! The processor time that this thread has used. Other work on the machine does not count in it.

use std::time::Duration;

#[repr(C)]
struct Time {
    seconds: i64,
    nanoseconds: i64,
}

extern "C" {
    fn clock_gettime(clock: i32, time: *mut Time) -> i32;
}

/// The clock of the calling thread, on Linux.
const THREAD: i32 = 3;

pub fn busy() -> Duration {
    let mut time = Time { seconds: 0, nanoseconds: 0 };
    // SAFETY: `time` is live, and laid out as the 64-bit C library's `timespec`.
    let status = unsafe { clock_gettime(THREAD, &mut time) };
    assert_eq!(status, 0, "there is such a clock");
    Duration::new(time.seconds as u64, time.nanoseconds as u32)
}
