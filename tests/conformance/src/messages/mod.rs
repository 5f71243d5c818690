//! `rcds_message_type`: whether bytes are a message, and of which type.

mod cases;
mod compare;
pub(crate) mod damage;
pub(crate) mod numbers;
pub(crate) mod order;
mod report;
pub(crate) mod valid;

#[cfg(test)]
mod faults;

pub use cases::count;
pub use compare::MessageType;

use crate::failure::Failure;

/// Runs every case of the seed, asserts that they had something to find, and says what they were.
pub fn run_all(seed: u64, function: MessageType) -> Result<Vec<String>, Failure> {
    assert!(cases::count() >= 200_000);
    let report = report::run(seed, cases::count(), function)?;
    report.assert_complete();
    Ok(vec![format!("rcds_message_type, seed {seed}: {report}")])
}

/// The messages of every case of the seed.
pub fn messages(seed: u64) -> impl Iterator<Item = Vec<u8>> {
    (0..cases::count()).map(move |number| cases::case(seed, number).message)
}

/// Runs one case of the seed.
pub fn run_one(seed: u64, number: usize, function: MessageType) -> Result<Vec<String>, Failure> {
    let answer = compare::compare(&cases::case(seed, number), function)?;
    Ok(vec![format!(
        "rcds_message_type, seed {seed}: case {number} as the reference has it: answer {answer}"
    )])
}
