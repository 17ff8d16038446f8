//! The time that this thread has run. Other work on the machine does not count, as it would by the wall clock.

#[repr(C)]
struct Time {
    seconds: i64,
    nanoseconds: i64,
}

const THREAD: i32 = 3;

extern "C" {
    fn clock_gettime(clock: i32, time: *mut Time) -> i32;
}

pub fn seconds() -> f64 {
    let mut time = Time { seconds: 0, nanoseconds: 0 };
    // SAFETY: the system writes one time, and on x86-64 Linux it has this form.
    let failed = unsafe { clock_gettime(THREAD, &mut time) };
    assert_eq!(failed, 0, "the thread's clock can be read");
    time.seconds as f64 + time.nanoseconds as f64 / 1e9
}
