//! `rcds_tree`: the tree of a string.

mod cases;
mod compare;
mod entries;
mod report;
mod runs;

#[cfg(test)]
mod faults;
#[cfg(test)]
mod sliding;
#[cfg(test)]
mod spread;

pub use cases::count;
pub use compare::Tree;

use crate::failure::Failure;

/// Runs every case of the seed, asserts that they had something to find, and says what they were.
pub fn run_all(seed: u64, function: Tree) -> Result<Vec<String>, Failure> {
    assert!(cases::count() >= 20_000);
    let report = report::run(seed, cases::count(), function)?;
    report.assert_complete();
    Ok(vec![format!("rcds_tree, seed {seed}: {report}")])
}

/// Runs one case of the seed.
pub fn run_one(seed: u64, number: usize, function: Tree) -> Result<Vec<String>, Failure> {
    let answer = compare::compare(&cases::case(seed, number), function)?;
    Ok(vec![format!(
        "rcds_tree, seed {seed}: case {number} as the reference has it: answer {answer}"
    )])
}
