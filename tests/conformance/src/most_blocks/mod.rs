//! `rcds_most_blocks`: the most blocks that one cutting can give, and strings of that length, which `rcds_tree` cuts.

mod cases;
mod compare;
mod cutting;
mod numbers;
mod report;

#[cfg(test)]
mod faults;

pub use cases::count;
pub use compare::{Calls, MostBlocks};

use crate::failure::Failure;

/// Runs every case of the seed, asserts that they had something to find, and says what they were.
pub fn run_all(seed: u64, calls: Calls) -> Result<Vec<String>, Failure> {
    assert!(cases::count() >= 100_000);
    let report = report::run(seed, cases::count(), calls)?;
    report.assert_complete();
    Ok(vec![format!("rcds_most_blocks, seed {seed}: {report}")])
}

/// Runs one case of the seed.
pub fn run_one(seed: u64, number: usize, calls: Calls) -> Result<Vec<String>, Failure> {
    let done = compare::compare(&cases::case(seed, number), calls)?;
    Ok(vec![format!(
        "rcds_most_blocks, seed {seed}: case {number} as the reference has it: {done:?}"
    )])
}
