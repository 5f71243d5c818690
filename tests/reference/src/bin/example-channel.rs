//! Writes the example channel file, `examples/channel.bin`, to standard output: 8,192 samples of
//! 12 bits, each in two bytes, high byte first.
//!
//! A vibration of two tones that swell and fade, with a little noise; and, at the start of each
//! quarter of the file, the same calibration stretch of 576 samples: a staircase, then a sweep.
//! Whole numbers only, so that the file is the same everywhere.

use std::io::Write;

const SAMPLES: u64 = 8_192;
const QUARTER: u64 = 2_048;
const STAIRCASE: u64 = 192;
const CALIBRATION: u64 = 576;

/// A sine drawn with parabolas: phase 0 to 65,535 is one turn, the result −1,024 to 1,024.
fn sine(phase: u64) -> i64 {
    let turn = (phase % 65_536) as i64;
    let half = turn % 32_768;
    let height = half * (32_768 - half) / 262_144;
    if turn < 32_768 {
        height
    } else {
        -height
    }
}

/// Noise of −6 to 6 for sample k.
fn noise(k: u64) -> i64 {
    let mixed = (k + 1).wrapping_mul(0x9e37_79b9_7f4a_7c15);
    let mixed = (mixed ^ (mixed >> 29)).wrapping_mul(0xbf58_476d_1ce4_e5b9);
    (mixed >> 40) as i64 % 13 - 6
}

/// Sample t of the calibration stretch: six steps, then a tone that rises in pitch.
fn calibration(t: u64) -> i64 {
    if t < STAIRCASE {
        return 512 + 512 * (t / 32) as i64;
    }
    let swept = t - STAIRCASE;
    2_048 + 7 * sine(swept * swept * 24) / 4
}

/// Sample k of the vibration.
fn vibration(k: u64) -> i64 {
    let swell = 600 + sine(k * 23) / 2;
    let first = sine(k * 1_311) * swell / 1_024;
    let second = sine(k * 4_099 + 9_000) * (1_100 - swell) / 1_024;
    2_048 + first + second / 2 + noise(k)
}

fn main() {
    let mut bytes = Vec::new();
    for k in 0..SAMPLES {
        let t = k % QUARTER;
        let sample = if t < CALIBRATION {
            calibration(t)
        } else {
            vibration(k)
        };
        bytes.extend((sample.clamp(0, 4_095) as u16).to_be_bytes());
    }
    std::io::stdout()
        .write_all(&bytes)
        .expect("standard output takes the file");
}
