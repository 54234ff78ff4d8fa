//! Time that this thread, or processes that it has waited for, have spent on a processor: what else the machine does is
//! not in it.
use std::sync::OnceLock;

#[repr(C)]
#[derive(Default)]
struct Time {
    seconds: i64,
    /// Nanoseconds of a clock, microseconds of what a process has used.
    parts: i64,
}

#[repr(C)]
#[derive(Default)]
struct Usage {
    user: Time,
    system: Time,
    other: [i64; 14],
}

const THREAD: i32 = 3;
const CHILDREN: i32 = -1;

extern "C" {
    fn clock_gettime(clock: i32, time: *mut Time) -> i32;
    fn getrusage(who: i32, usage: *mut Usage) -> i32;
}

fn thread() -> f64 {
    let mut time = Time::default();
    // SAFETY: `Time` is C's timespec on 64-bit Linux, and is lent for the call.
    assert_eq!(unsafe { clock_gettime(THREAD, &mut time) }, 0, "the thread's clock cannot be read");
    time.seconds as f64 * 1e9 + time.parts as f64
}

/// What reading the clock twice takes by itself: the median of many times.
fn reading() -> f64 {
    static READING: OnceLock<f64> = OnceLock::new();
    *READING.get_or_init(|| {
        let mut times: Vec<f64> = (0..10_001)
            .map(|_| {
                let start = thread();
                thread() - start
            })
            .collect();
        times.sort_by(f64::total_cmp);
        times[times.len() / 2]
    })
}

/// Nanoseconds that the work takes this thread.
pub fn nanoseconds(work: impl FnOnce()) -> f64 {
    let reading = reading();
    let start = thread();
    work();
    thread() - start - reading
}

/// Seconds that all processes waited for so far have taken.
pub fn of_processes() -> f64 {
    let mut usage = Usage::default();
    // SAFETY: `Usage` is C's rusage on 64-bit Linux, and is lent for the call.
    assert_eq!(unsafe { getrusage(CHILDREN, &mut usage) }, 0, "what processes took cannot be read");
    [usage.user, usage.system]
        .iter()
        .map(|time| time.seconds as f64 + time.parts as f64 / 1e6)
        .sum()
}
