//! How long the calls of the library take: processor time of the thread that makes them, which other
//! processes on the machine do not lengthen.

use reference::rcds::ACCEPTED;
use std::cell::Cell;
use std::time::Duration;

/// Linux's number of it.
const CLOCK_THREAD_CPUTIME_ID: i32 = 3;

/// C's `struct timespec`, where `time_t` and `long` have 64 bits.
#[repr(C)]
struct Time {
    seconds: i64,
    nanoseconds: i64,
}

extern "C" {
    fn clock_gettime(clock: i32, time: *mut Time) -> i32;
}

/// The calls of a thread.
#[derive(Clone, Copy, Debug, Default, PartialEq, Eq)]
pub struct Calls {
    pub count: u64,
    /// How many answered the number of a question.
    pub refused: u64,
    pub longest: Duration,
}

thread_local! {
    static CALLS: Cell<Calls> = Cell::default();
}

/// Makes a call and counts it.
pub fn timed(call: impl FnOnce() -> u64) -> u64 {
    let start = now();
    let answer = call();
    let taken = now() - start;
    CALLS.with(|calls| {
        let before = calls.get();
        calls.set(Calls {
            count: before.count + 1,
            refused: before.refused + u64::from((1..ACCEPTED).contains(&answer)),
            longest: before.longest.max(taken),
        });
    });
    answer
}

/// The calls of this thread since they were last asked for.
pub fn calls() -> Calls {
    CALLS.with(Cell::take)
}

fn now() -> Duration {
    let mut time = Time {
        seconds: 0,
        nanoseconds: 0,
    };
    // The clock is written to a place of its own.
    let status = unsafe { clock_gettime(CLOCK_THREAD_CPUTIME_ID, &mut time) };
    assert!(status == 0, "a thread has a clock");
    Duration::new(time.seconds as u64, time.nanoseconds as u32)
}

#[cfg(test)]
mod tests {
    use super::{calls, timed, Calls, ACCEPTED};
    use std::time::{Duration, Instant};

    #[test]
    fn calls_are_counted_until_they_are_asked_for() {
        let busy = |time: Duration| {
            let start = Instant::now();
            while start.elapsed() < time {}
            7
        };
        calls();
        assert_eq!(timed(|| busy(Duration::from_millis(60))), 7);
        assert_eq!(timed(|| 0), 0);
        assert_eq!(timed(|| ACCEPTED), ACCEPTED);
        let done = calls();
        assert_eq!((done.count, done.refused), (3, 1));
        assert!(done.longest > Duration::ZERO && done.longest < Duration::from_secs(1));
        assert_eq!(calls(), Calls::default());
    }
}
