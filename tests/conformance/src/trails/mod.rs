//! `rcds_trail_number` and `rcds_trail_order`: the number of an order, and the order of a number; and of both,
//! whether the trail is the only one.

mod cases;
mod compare;
pub mod orders;
mod report;
mod stranded;
mod which;

#[cfg(test)]
mod faults;

pub use cases::count;
pub use compare::{Calls, TrailNumber, TrailOrder};

use crate::failure::Failure;

/// Runs every case of the seed, asserts that they had something to find, and says what they were.
pub fn run_all(seed: u64, calls: Calls) -> Result<Vec<String>, Failure> {
    assert!(cases::count() >= 100_000);
    let report = report::run(seed, cases::count(), calls)?;
    report.assert_complete();
    Ok(vec![
        format!("rcds_trail_number, seed {seed}: {}", report.number),
        format!("rcds_trail_order, seed {seed}: {}", report.order),
        stranded::run(calls)?,
    ])
}

/// Runs one case of the seed.
pub fn run_one(seed: u64, number: usize, calls: Calls) -> Result<Vec<String>, Failure> {
    let done = compare::compare(&cases::case(seed, number), calls)?;
    Ok(vec![format!(
        "trails, seed {seed}: case {number} as the reference has it: {done:?}"
    )])
}
