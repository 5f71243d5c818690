//! `rcds_sketch_open`: the sender's cells against the own ones, and the list that they lead to.

mod any_order;
mod cases;
mod compare;
pub(crate) mod forged;
pub(crate) mod lists;
mod report;

#[cfg(test)]
mod faults;

pub use cases::count;
pub use compare::{positive_own_alone, SketchOpen};

use crate::failure::Failure;

/// Runs every case of the seed, asserts that they had something to find, and says what they were.
pub fn run_all(seed: u64, function: SketchOpen) -> Result<Vec<String>, Failure> {
    assert!(cases::count() >= 20_000);
    let report = report::run(seed, cases::count(), function)?;
    report.assert_complete();
    Ok(vec![format!("rcds_sketch_open, seed {seed}: {report}")])
}

/// Runs one case of the seed.
pub fn run_one(seed: u64, number: usize, function: SketchOpen) -> Result<Vec<String>, Failure> {
    let done = compare::compare(&cases::case(seed, number), function)?;
    Ok(vec![format!(
        "rcds_sketch_open, seed {seed}: case {number} as the reference has it: {done:?}"
    )])
}
