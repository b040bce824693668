//! Clocks of the C library.

use std::time::Duration;

#[repr(C)]
struct Timespec {
    seconds: i64,
    nanos: i64,
}

extern "C" {
    fn clock_gettime(clock: i32, time: *mut Timespec) -> i32;
}

const MONOTONIC: i32 = 1;
const THREAD_CPU_TIME: i32 = 3;

fn read(clock: i32) -> Duration {
    let mut time = Timespec { seconds: 0, nanos: 0 };
    // SAFETY: the call writes the one struct that it is handed, which is C's timespec on 64-bit Linux.
    unsafe { clock_gettime(clock, &mut time) };
    Duration::new(time.seconds as u64, time.nanos as u32)
}

/// The processor time that this thread has had: what others run on the core meanwhile does not count.
pub fn processor_time() -> Duration {
    read(THREAD_CPU_TIME)
}

/// Nanoseconds since some moment, the same one for every thread and every forked process.
pub fn now() -> u64 {
    read(MONOTONIC).as_nanos() as u64
}
