//! Runs all cases of a seed and counts what they were.

use super::cases::{case, Case, Family, FAMILIES};
use super::compare::{compare, Crossed, Done};
use crate::content::KINDS;
use crate::failure::Failure;
use crate::two_threads::in_order;
use reference::rcds::ACCEPTED;
use std::collections::{BTreeMap, BTreeSet};
use std::fmt;

/// The questions that `rcds_crossed` asks.
const QUESTIONS: [u64; 2] = [21, 22];

/// What ran.
#[derive(Default)]
pub struct Report {
    cases: usize,
    accepted: usize,
    refused: BTreeMap<u64, usize>,
    /// Accepted without a node, with one byte of range, and with a string of more than 65,536 bytes.
    none: usize,
    one_byte: usize,
    long_strings: usize,
    /// Answers that fill their table, and answers without a byte of it.
    exact_room: usize,
    no_room: usize,
    /// The most nodes of an answer, and the largest places of a node and of a parent.
    most: u64,
    node: u64,
    parent: u64,
    /// Cases with string and node table in one memory.
    shared: usize,
    contents: BTreeSet<String>,
    /// Accepted and refused cases of each family.
    families: BTreeMap<Family, [usize; 2]>,
}

/// Runs the first cases, so many of them, up to the first that differs.
pub fn run(seed: u64, cases: usize, function: Crossed) -> Result<Report, Failure> {
    let mut report = Report::default();
    let work = |number: usize| {
        let case = case(seed, number);
        let done = compare(&case, function)?;
        Ok((case, done))
    };
    in_order(cases, work, |(case, done)| report.add(&case, &done))?;
    Ok(report)
}

impl Report {
    fn add(&mut self, case: &Case, done: &Done) {
        let refused = done.answer < ACCEPTED;
        self.cases += 1;
        self.contents.insert(format!("{:?}", case.content));
        self.families.entry(case.family).or_default()[usize::from(refused)] += 1;
        self.shared += usize::from(done.shared);
        if refused {
            *self.refused.entry(done.answer).or_default() += 1;
            return;
        }
        let count = done.answer - ACCEPTED;
        self.accepted += 1;
        self.none += usize::from(count == 0);
        self.one_byte += usize::from(count > 0 && case.length == 1);
        self.long_strings += usize::from(count > 0 && case.string.len() > 65_536);
        self.exact_room += usize::from(count > 0 && case.room as u64 == 16 * count);
        self.no_room += usize::from(case.room == 0);
        self.most = self.most.max(count);
        self.node = self.node.max(done.node);
        self.parent = self.parent.max(done.parent);
    }

    /// That both questions refused and every kind of answer did occur, and in every family both answers that
    /// it can have, so that the run had something to find.
    pub fn assert_complete(&self) {
        let refused: Vec<u64> = self.refused.keys().copied().collect();
        assert_eq!(refused, QUESTIONS, "questions that refused a case");
        assert!(self.none > 0, "every range crossed a node");
        assert!(self.one_byte > 0, "no range of one byte crossed a node");
        assert!(self.long_strings > 0, "no string over 65,536 bytes");
        assert!(self.exact_room > 0, "no answer filled its table");
        assert!(self.no_room > 0, "no answer without a table");
        assert!(self.most > 4_096, "no answer of more than 4,096 nodes");
        assert!(self.node > 4_096, "no node past 4,096 entries");
        assert_eq!(self.parent, 4_095, "largest place of a parent");
        assert!(self.shared > 0, "no string and table in one memory");
        let contents = self.contents.len();
        assert_eq!(contents, KINDS.len(), "a kind of content did not occur");
        for (family, _) in FAMILIES {
            let [accepted, refused] = self.families[&family];
            assert!(accepted > 0, "{family:?}: none accepted");
            assert!(refused > 0, "{family:?}: none refused");
        }
    }
}

impl fmt::Display for Report {
    fn fmt(&self, f: &mut fmt::Formatter) -> fmt::Result {
        let list = |counts: Vec<String>| counts.join(", ");
        let refused = self.refused.iter();
        let refused = refused.map(|(number, count)| format!("by {number} {count}"));
        let families = self.families.iter();
        let families = families
            .map(|(family, [accepted, refused])| format!("{family:?} {accepted} and {refused}"));
        write!(
            f,
            "{} cases as the reference has them: accepted {} ({} without a node, {} of one byte, {} of a string over 65,536 bytes; {} fill the table, {} need none; at most {} nodes, the last {}, the last parent {}); refused {}; {} with string and node table in one memory; accepted and refused of each family: {}",
            self.cases,
            self.accepted,
            self.none,
            self.one_byte,
            self.long_strings,
            self.exact_room,
            self.no_room,
            self.most,
            self.node,
            self.parent,
            list(refused.collect()),
            self.shared,
            list(families.collect()),
        )
    }
}
