//! Runs all cases of a seed and counts what they were.

use super::cases::{case, Case};
use super::compare::{compare, Tree};
use crate::content::KINDS;
use crate::failure::Failure;
use crate::two_threads::in_order;
use reference::rcds::ACCEPTED;
use std::collections::BTreeMap;
use std::fmt;

/// The questions that `rcds_tree` asks.
const QUESTIONS: [u64; 7] = [1, 2, 3, 4, 6, 7, 8];

/// What ran.
#[derive(Default)]
pub struct Report {
    pub cases: usize,
    pub accepted: usize,
    /// Trees of exactly 4,096 nodes.
    pub full: usize,
    pub refused: BTreeMap<u64, usize>,
    pub contents: BTreeMap<String, usize>,
    /// Accepted strings of 65,536 bytes.
    pub longest: usize,
}

/// Runs the first cases, so many of them, up to the first that differs.
pub fn run(seed: u64, cases: usize, function: Tree) -> Result<Report, Failure> {
    let mut report = Report::default();
    let work = |number: usize| {
        let case = case(seed, number);
        let answer = compare(&case, function)?;
        Ok((case, answer))
    };
    in_order(cases, work, |(case, answer)| report.add(&case, answer))?;
    Ok(report)
}

impl Report {
    fn add(&mut self, case: &Case, answer: u64) {
        self.cases += 1;
        *self
            .contents
            .entry(format!("{:?}", case.content))
            .or_default() += 1;
        if answer < ACCEPTED {
            *self.refused.entry(answer).or_default() += 1;
            return;
        }
        self.accepted += 1;
        self.full += usize::from(answer == ACCEPTED + 4_096);
        self.longest += usize::from(case.string.len() == 65_536);
    }

    /// That every answer and every content did occur, so that the run had something to find.
    pub fn assert_complete(&self) {
        assert!(self.accepted > 0, "no case was accepted");
        assert!(self.full > 0, "no tree had 4,096 nodes");
        assert!(self.longest > 0, "no string of 65,536 bytes was accepted");
        for question in QUESTIONS {
            assert!(
                self.refused.contains_key(&question),
                "question {question} refused no case"
            );
        }
        assert_eq!(
            self.refused.len(),
            QUESTIONS.len(),
            "another question refused a case"
        );
        assert_eq!(
            self.contents.len(),
            KINDS.len(),
            "a kind of content did not occur"
        );
    }
}

impl fmt::Display for Report {
    fn fmt(&self, f: &mut fmt::Formatter) -> fmt::Result {
        let list = |counts: Vec<String>| counts.join(", ");
        let refused = self
            .refused
            .iter()
            .map(|(number, count)| format!("by {number} {count}"));
        let contents = self
            .contents
            .iter()
            .map(|(name, count)| format!("{name} {count}"));
        write!(
            f,
            "{} cases as the reference has them: accepted {} ({} with 4,096 nodes, {} of 65,536 bytes); refused {}; strings {}",
            self.cases,
            self.accepted,
            self.full,
            self.longest,
            list(refused.collect()),
            list(contents.collect()),
        )
    }
}
