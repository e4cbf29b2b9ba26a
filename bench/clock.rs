//! The processor's time of this thread, in which other work shows little.

#[repr(C)]
struct Time {
    seconds: i64,
    nanoseconds: i64,
}

unsafe extern "C" {
    fn clock_gettime(clock: i32, time: *mut Time) -> i32;
}

const THREAD_TIME: i32 = 3;

/// The processor's time of this thread, in nanoseconds.
pub fn now() -> f64 {
    let mut time = Time { seconds: 0, nanoseconds: 0 };
    assert_eq!(unsafe { clock_gettime(THREAD_TIME, &mut time) }, 0);
    time.seconds as f64 * 1e9 + time.nanoseconds as f64
}
