//! `rcds_crossed`: the nodes that share a byte with a range of the string.

mod altered;
mod cases;
mod compare;
mod ranges;
mod report;

#[cfg(test)]
mod faults;

pub use cases::count;
pub use compare::Crossed;

use crate::failure::Failure;

/// Runs every case of the seed, asserts that they had something to find, and says what they were.
pub fn run_all(seed: u64, function: Crossed) -> Result<Vec<String>, Failure> {
    assert!(cases::count() >= 20_000);
    let report = report::run(seed, cases::count(), function)?;
    report.assert_complete();
    Ok(vec![format!("rcds_crossed, seed {seed}: {report}")])
}

/// Runs one case of the seed.
pub fn run_one(seed: u64, number: usize, function: Crossed) -> Result<Vec<String>, Failure> {
    let done = compare::compare(&cases::case(seed, number), function)?;
    Ok(vec![format!(
        "rcds_crossed, seed {seed}: case {number} as the reference has it: {done:?}"
    )])
}
