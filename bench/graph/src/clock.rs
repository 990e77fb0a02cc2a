// The time that the processor has given to this process: std has no call for it.
#[repr(C)]
struct Time {
    seconds: i64,
    nanoseconds: i64,
}

unsafe extern "C" {
    fn clock_gettime(clock: i32, time: *mut Time) -> i32;
}

// As Linux numbers its clocks.
const OF_PROCESS: i32 = 2;

pub fn processor_seconds() -> f64 {
    let mut time = Time { seconds: 0, nanoseconds: 0 };
    // SAFETY: the C library's call writes one such record, here.
    let status = unsafe { clock_gettime(OF_PROCESS, &mut time) };
    assert_eq!(status, 0);
    time.seconds as f64 + time.nanoseconds as f64 / 1e9
}
