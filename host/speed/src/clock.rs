//! The CPU time of the current thread.

use std::hint::black_box;

#[repr(C)]
struct Timespec {
    seconds: i64,
    nanoseconds: i64,
}

/// The number that Linux has for the POSIX clock of the calling thread.
const CLOCK_THREAD_CPUTIME_ID: i32 = 3;

/// Returns the CPU time of the thread in nanoseconds.
fn now() -> u64 {
    extern "C" {
        fn clock_gettime(clock: i32, time: *mut Timespec) -> i32;
    }
    let mut time = Timespec { seconds: 0, nanoseconds: 0 };
    // SAFETY: the pointer is valid during the call, and the value has the layout that Linux on x86-64 writes.
    let failed = unsafe { clock_gettime(CLOCK_THREAD_CPUTIME_ID, &mut time) };
    assert_eq!(failed, 0, "cannot read the clock of the thread");
    time.seconds as u64 * 1_000_000_000 + time.nanoseconds as u64
}

/// Returns the nanoseconds that `work` takes. Dropping its result is not part of the time.
pub fn time<T>(work: impl FnOnce() -> T) -> u64 {
    let start = now();
    let made = black_box(work());
    let spent = now() - start;
    drop(made);
    spent
}
