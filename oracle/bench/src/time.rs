//! Two clocks. The time that this thread has had a processor for: for many rounds at once, since on a busy machine the time of
//! day would count others' work. The time of day: for one call, of which a median of many is taken, since reading it is short.

use std::ffi::{c_int, c_long};
use std::time::{Duration, Instant};

#[repr(C)]
struct Timespec {
    seconds: i64,
    nanoseconds: c_long,
}

/// Linux's number of the clock.
const THREAD_CPUTIME: c_int = 3;

unsafe extern "C" {
    fn clock_gettime(clock: c_int, time: *mut Timespec) -> c_int;
}

fn now() -> Duration {
    let mut time = Timespec { seconds: 0, nanoseconds: 0 };
    // SAFETY: `time` is a `struct timespec` that lives through the call.
    let failed = unsafe { clock_gettime(THREAD_CPUTIME, &mut time) };
    assert_eq!(failed, 0, "the clock can be read");
    Duration::new(time.seconds as u64, time.nanoseconds as u32)
}

/// What `work` answers, and the microseconds of a round of it.
pub fn timed<T>(rounds: u32, work: impl FnOnce() -> T) -> (T, f64) {
    let start = now();
    let answer = work();
    (answer, (now() - start).as_secs_f64() * 1e6 / f64::from(rounds))
}

/// What one call answers, and its microseconds.
pub fn lap<T>(call: impl FnOnce() -> T) -> (T, f64) {
    let start = Instant::now();
    let answer = call();
    (answer, start.elapsed().as_secs_f64() * 1e6)
}

pub fn median(mut times: Vec<f64>) -> f64 {
    times.sort_by(f64::total_cmp);
    times[times.len() / 2]
}
