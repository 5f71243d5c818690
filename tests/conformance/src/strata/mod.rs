//! `rcds_strata_build` and `rcds_strata_estimate`: the strata of a list, and about how many shingles of two
//! lists differ.

mod altered;
mod cases;
mod compare;
mod plans;
mod report;
mod states;
mod zeros;

#[cfg(test)]
mod faults;

pub use cases::count;
pub use compare::{Calls, StrataBuild, StrataEstimate};

use crate::failure::Failure;

/// Runs every case of the seed, asserts that they had something to find, and says what they were.
pub fn run_all(seed: u64, calls: Calls) -> Result<Vec<String>, Failure> {
    assert!(cases::count() >= 20_000);
    let report = report::run(seed, cases::count(), calls)?;
    report.assert_complete();
    Ok(vec![
        format!("rcds_strata_build, seed {seed}: {}", report.build),
        format!("rcds_strata_estimate, seed {seed}: {}", report.estimate),
    ])
}

/// Runs one case of the seed.
pub fn run_one(seed: u64, number: usize, calls: Calls) -> Result<Vec<String>, Failure> {
    let done = compare::compare(&cases::case(seed, number), calls)?;
    Ok(vec![format!(
        "strata, seed {seed}: case {number} as the reference has it: {done:?}"
    )])
}
