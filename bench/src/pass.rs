//! Calls timed in turn with plain passes of FNV-1a.

use crate::clock::seconds;
use std::hint::black_box;
use std::time::{Duration, Instant};

/// One plain pass of FNV-1a: the least that any hashing of the blocks can cost.
fn fnv_pass(bytes: &[u8]) -> u64 {
    bytes
        .iter()
        .fold(14_695_981_039_346_656_037, |value, &byte| {
            (value ^ u64::from(byte)).wrapping_mul(1_099_511_628_211)
        })
}

/// The least times of one call and of one pass over the bytes, in seconds, taken in turn: at least
/// 7 rounds, and rounds for 40 ms. Each round has so many repetitions, so that the clock's own time
/// does not count.
pub fn call_and_pass(repetitions: usize, bytes: &[u8], mut call: impl FnMut()) -> (f64, f64) {
    let begun = Instant::now();
    let (mut least_call, mut least_pass) = (f64::INFINITY, f64::INFINITY);
    let mut rounds = 0;
    while rounds < 7 || begun.elapsed() < Duration::from_millis(40) {
        least_call = least_call.min(seconds(repetitions, &mut call));
        let passes = (65_536 / bytes.len()).clamp(1, repetitions);
        let pass = || {
            black_box(fnv_pass(black_box(bytes)));
        };
        least_pass = least_pass.min(seconds(passes, pass));
        rounds += 1;
    }
    (least_call, least_pass)
}

/// The time of one call in microseconds, and in FNV-1a passes over 64 KiB.
#[derive(Clone, Copy)]
pub struct Cost {
    pub microseconds: f64,
    pub passes: f64,
}

/// Times a call in turn with passes over 64 KiB; a short call is repeated.
pub fn cost(mut call: impl FnMut()) -> Cost {
    let once = seconds(1, &mut call);
    let repetitions = (0.000_1 / once.max(1e-8)).clamp(1.0, 1_000.0) as usize;
    let (call, pass) = call_and_pass(repetitions, &[7; 65_536], call);
    Cost {
        microseconds: call * 1e6,
        passes: call / pass,
    }
}

/// Two cells of a table: microseconds and passes.
pub fn cells(cost: &Cost) -> String {
    format!("{:.1} | {:.3}", cost.microseconds, cost.passes)
}
