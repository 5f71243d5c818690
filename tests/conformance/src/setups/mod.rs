//! `rcds_sender_setup`: a string's three tables, and the sender's state.

mod cases;
mod compare;
mod report;

#[cfg(test)]
mod faults;

pub use cases::count;
pub use compare::SenderSetup;

use crate::failure::Failure;

/// Runs every case of the seed, asserts that they had something to find, and says what they were.
pub fn run_all(seed: u64, function: SenderSetup) -> Result<Vec<String>, Failure> {
    assert!(cases::count() >= 20_000);
    let report = report::run(seed, cases::count(), function)?;
    report.assert_complete();
    Ok(vec![format!("rcds_sender_setup, seed {seed}: {report}")])
}

/// Runs one case of the seed.
pub fn run_one(seed: u64, number: usize, function: SenderSetup) -> Result<Vec<String>, Failure> {
    let done = compare::compare(&cases::case(seed, number), function)?;
    Ok(vec![format!(
        "rcds_sender_setup, seed {seed}: case {number} as the reference has it: {done:?}"
    )])
}
