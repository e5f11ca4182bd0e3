//! Processor time: what others do on the machine meanwhile is not in it.

#![allow(unsafe_code)]

use std::time::Duration;

/// The C library's, on 64-bit Linux.
mod c {
    #[repr(C)]
    #[derive(Default)]
    pub struct Timespec {
        pub seconds: i64,
        pub nanoseconds: i64,
    }

    /// User time and system time, each in seconds and microseconds; then what
    /// is not looked at here.
    #[repr(C)]
    #[derive(Default)]
    pub struct Usage {
        pub times: [[i64; 2]; 2],
        pub others: [i64; 14],
    }

    pub const THREAD_CPU_TIME: i32 = 3;
    pub const CHILDREN: i32 = -1;

    extern "C" {
        pub fn clock_gettime(clock: i32, time: *mut Timespec) -> i32;
        pub fn getrusage(who: i32, usage: *mut Usage) -> i32;
    }
}

/// The processor time of this thread so far.
pub fn thread() -> Duration {
    let mut time = c::Timespec::default();
    // SAFETY: the pointer is to a local of the layout that the call fills.
    let done = unsafe { c::clock_gettime(c::THREAD_CPU_TIME, &raw mut time) };
    assert_eq!(done, 0, "a clock of this thread");
    Duration::new(time.seconds as u64, time.nanoseconds as u32)
}

/// The processor time of all processes that were waited for so far.
pub fn children() -> Duration {
    let mut usage = c::Usage::default();
    // SAFETY: the pointer is to a local of the layout that the call fills.
    let done = unsafe { c::getrusage(c::CHILDREN, &raw mut usage) };
    assert_eq!(done, 0, "the use of the processes");
    let part = |[seconds, micros]: [i64; 2]| Duration::new(seconds as u64, micros as u32 * 1000);
    usage.times.map(part).into_iter().sum()
}
