//! Whole sessions: both ends through C beside both ends of the reference, call by call.

mod altered;
mod calls;
mod cases;
mod counts;
mod course;
mod end;
mod endless;
mod forged;
mod lockstep;
mod named;
mod not_rising;
mod other_forms;
mod report;
mod strings;
mod why;

#[cfg(test)]
mod faults;

pub use calls::{Calls, Query, ReceiverSetup, Take};
pub use cases::count;

use crate::failure::Failure;

/// Runs every session of the seed, asserts that they had something to find, and says what they were.
pub fn run_all(seed: u64, calls: Calls) -> Result<Vec<String>, Failure> {
    assert!(cases::count() >= 20_000);
    let report = report::run(seed, cases::count(), &calls)?;
    report.assert_complete();
    let mut lines = vec![format!("sessions, seed {seed}: {report}")];
    lines.extend(report.answers());
    Ok(lines)
}

/// Runs one session of the seed.
pub fn run_one(seed: u64, number: usize, calls: Calls) -> Result<Vec<String>, Failure> {
    let counts = course::run(&cases::case(seed, number), &calls)?;
    Ok(vec![format!(
        "sessions, seed {seed}: session {number} as the reference has it: {counts:?}"
    )])
}
