//! The clock: processor time of this thread, so that other work on the machine adds little.

/// The time so far, in nanoseconds from some moment.
#[cfg(target_os = "linux")]
pub fn now() -> f64 {
    #[repr(C)]
    struct Time {
        seconds: i64,
        nanoseconds: i64,
    }
    extern "C" {
        fn clock_gettime(clock: i32, time: *mut Time) -> i32;
    }
    const THREAD: i32 = 3;
    let mut time = Time { seconds: 0, nanoseconds: 0 };
    // SAFETY: the call writes one time of this layout (64-bit Linux) and keeps nothing.
    let status = unsafe { clock_gettime(THREAD, &mut time) };
    assert_eq!(status, 0, "the thread's clock");
    time.seconds as f64 * 1e9 + time.nanoseconds as f64
}

/// The time so far, in nanoseconds from some moment: elsewhere, that of the clock on the wall.
#[cfg(not(target_os = "linux"))]
pub fn now() -> f64 {
    use std::sync::OnceLock;
    use std::time::Instant;
    static START: OnceLock<Instant> = OnceLock::new();
    START.get_or_init(Instant::now).elapsed().as_nanos() as f64
}
