//! The processor time of this thread, which stands still while another program has the processor.

#[repr(C)]
struct Timespec {
    seconds: i64,
    nanoseconds: i64,
}

extern "C" {
    fn clock_gettime(clock: i32, time: *mut Timespec) -> i32;
}

/// Linux's number for the clock of the calling thread.
const CLOCK_THREAD_CPUTIME_ID: i32 = 3;

fn now() -> f64 {
    let mut time = Timespec {
        seconds: 0,
        nanoseconds: 0,
    };
    // The call writes one timespec, and that is what it is lent.
    let status = unsafe { clock_gettime(CLOCK_THREAD_CPUTIME_ID, &mut time) };
    assert_eq!(status, 0, "the thread has a clock");
    time.seconds as f64 + time.nanoseconds as f64 / 1e9
}

/// The seconds that the work takes, the mean of some repetitions.
pub fn seconds(repetitions: usize, mut work: impl FnMut()) -> f64 {
    let start = now();
    for _ in 0..repetitions {
        work();
    }
    (now() - start) / repetitions as f64
}
