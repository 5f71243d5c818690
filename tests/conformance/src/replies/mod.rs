//! `rcds_reply`: the sender's reply to a message, over a string and the tables that a setup left.

mod altered;
mod cases;
mod compare;
pub(crate) mod form;
mod queries;
mod report;
pub(crate) mod setup;

#[cfg(test)]
mod faults;

pub use cases::count;
pub use compare::Reply;

use crate::failure::Failure;

/// Runs every case of the seed, asserts that they had something to find, and says what they were.
pub fn run_all(seed: u64, function: Reply) -> Result<Vec<String>, Failure> {
    assert!(cases::count() >= 20_000);
    let report = report::run(seed, cases::count(), function)?;
    report.assert_complete();
    Ok(vec![format!("rcds_reply, seed {seed}: {report}")])
}

/// Runs one case of the seed.
pub fn run_one(seed: u64, number: usize, function: Reply) -> Result<Vec<String>, Failure> {
    let done = compare::compare(&cases::case(seed, number), function)?;
    Ok(vec![format!(
        "rcds_reply, seed {seed}: case {number}: {done:?}"
    )])
}
