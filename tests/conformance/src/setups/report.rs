//! Runs all cases of a seed and counts what they were.

use super::cases::{case, Case};
use super::compare::{compare, Done, SenderSetup};
use crate::content::KINDS;
use crate::failure::Failure;
use crate::two_threads::in_order;
use reference::rcds::ACCEPTED;
use std::collections::{BTreeMap, BTreeSet};
use std::fmt;

/// The questions that a setup asks.
const QUESTIONS: [u64; 8] = [1, 2, 3, 4, 5, 6, 7, 8];

/// What question 7 is asked of.
const PIECES: [&str; 4] = ["nodes", "shingles", "cells", "state"];

/// What ran.
#[derive(Default)]
pub struct Report {
    cases: usize,
    accepted: usize,
    /// Trees of exactly 4,096 nodes.
    full: usize,
    /// Accepted strings of 65,536 bytes.
    longest: usize,
    refused: BTreeMap<u64, usize>,
    /// Refused by 7 because of one piece alone.
    alone: [usize; 4],
    contents: BTreeSet<String>,
    /// Sketch widths that were accepted.
    widths: BTreeSet<u64>,
    most_shingles: usize,
    largest_count: u64,
    /// Setups with a count of more than 255.
    large_counts: usize,
}

/// Runs the first cases, so many of them, up to the first that differs.
pub fn run(seed: u64, cases: usize, function: SenderSetup) -> Result<Report, Failure> {
    let mut report = Report::default();
    let work = |number: usize| {
        let case = case(seed, number);
        let done = compare(&case, function)?;
        Ok((case, done))
    };
    in_order(cases, work, |(case, done)| report.add(&case, &done))?;
    Ok(report)
}

impl Report {
    fn add(&mut self, case: &Case, done: &Done) {
        self.cases += 1;
        self.contents.insert(format!("{:?}", case.content));
        if done.answer < ACCEPTED {
            *self.refused.entry(done.answer).or_default() += 1;
            let short = case.short();
            if done.answer == 7 && short.iter().filter(|&&short| short).count() == 1 {
                for (alone, short) in self.alone.iter_mut().zip(short) {
                    *alone += usize::from(short);
                }
            }
            return;
        }
        self.accepted += 1;
        self.full += usize::from(done.answer == ACCEPTED + 4_096);
        self.longest += usize::from(case.string.len() == 65_536);
        self.widths.insert(case.width);
        self.most_shingles = self.most_shingles.max(done.shingles);
        self.largest_count = self.largest_count.max(done.largest_count);
        self.large_counts += usize::from(done.largest_count > 255);
    }

    /// That every answer, every width and every content did occur, so that the run had something to
    /// find.
    pub fn assert_complete(&self) {
        assert!(self.full > 0, "no tree had 4,096 nodes");
        assert!(self.longest > 0, "no string of 65,536 bytes was accepted");
        assert_eq!(self.widths.len(), 64, "a width was not accepted");
        assert!(self.large_counts > 0, "no count of two bytes");
        assert!(self.most_shingles > 3_500, "no long list");
        let refused: Vec<u64> = self.refused.keys().copied().collect();
        assert_eq!(refused, QUESTIONS, "questions that refused a case");
        for (alone, piece) in self.alone.iter().zip(PIECES) {
            assert!(*alone > 0, "7 refused nothing because of the {piece} alone");
        }
        let contents = self.contents.len();
        assert_eq!(contents, KINDS.len(), "a kind of content did not occur");
    }
}

impl fmt::Display for Report {
    fn fmt(&self, f: &mut fmt::Formatter) -> fmt::Result {
        let list = |counts: Vec<String>| counts.join(", ");
        let refused = self.refused.iter();
        let refused = refused.map(|(number, count)| format!("by {number} {count}"));
        let alone = self.alone.iter().zip(PIECES);
        let alone = alone.map(|(count, piece)| format!("{piece} {count}"));
        write!(
            f,
            "{} cases as the reference has them: accepted {} ({} with 4,096 nodes, {} of 65,536 bytes, {} with a count above 255, at most {} shingles, largest count {}); refused {}; by 7 because of one piece alone: {}",
            self.cases,
            self.accepted,
            self.full,
            self.longest,
            self.large_counts,
            self.most_shingles,
            self.largest_count,
            list(refused.collect()),
            list(alone.collect()),
        )
    }
}
