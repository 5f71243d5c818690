//! Runs all cases of a seed and counts what they were.

use super::cases::{case, Case, Family, FAMILIES};
use super::compare::{compare, Calls, Done};
use super::cutting::{Cut, Cutting, Text};
use super::numbers::{Numbers, LONGEST, MOST_DISTANCE};
use crate::content::KINDS;
use crate::counts::{counted, of_families};
use crate::failure::Failure;
use crate::two_threads::in_order;
use reference::rcds::ACCEPTED;
use std::collections::{BTreeMap, BTreeSet};
use std::fmt;

/// The question that `rcds_most_blocks` asks.
const QUESTION: u64 = 24;

/// What ran.
#[derive(Default)]
pub struct Report {
    cases: usize,
    accepted: usize,
    refused: usize,
    /// Accepted cases by their blocks, and those whose length would have room for more than 32.
    blocks: BTreeMap<u64, usize>,
    capped: usize,
    /// Accepted cases by what stands at an end of what is allowed.
    ends: BTreeMap<&'static str, usize>,
    /// Refused for one reason alone, and for two at once.
    alone: BTreeMap<&'static str, usize>,
    two: usize,
    cut: CutReport,
    /// Accepted and refused cases of each family.
    families: BTreeMap<Family, [usize; 2]>,
}

/// What was cut.
#[derive(Default)]
struct CutReport {
    /// Trees by their levels.
    levels: BTreeMap<u64, usize>,
    /// Trees that 8 refused.
    refused: usize,
    /// Nodes for which several blocks are allowed: of equal bytes and of other strings; and those of zeros.
    could: [usize; 2],
    zeros: usize,
    /// Those of other strings that have as many as are allowed.
    have: usize,
    contents: BTreeSet<String>,
    spaced: usize,
    periods: usize,
}

/// Runs the first cases, so many of them, up to the first that differs.
pub fn run(seed: u64, cases: usize, calls: Calls) -> Result<Report, Failure> {
    let mut report = Report::default();
    let work = |number: usize| {
        let case = case(seed, number);
        let done = compare(&case, calls)?;
        Ok((case, done))
    };
    in_order(cases, work, |(case, done)| report.add(&case, &done))?;
    Ok(report)
}

/// What of the numbers 24 has a no to.
fn noes(numbers: Numbers) -> Vec<&'static str> {
    let Numbers { n, w, h } = numbers;
    let all = [
        ("w below 2", w < 2),
        ("w above 12", w > 12),
        ("h 0", h < 1),
        ("h above 32,768", h > MOST_DISTANCE),
        ("n above 65,536", n > LONGEST),
    ];
    let noes = all.into_iter().filter(|(_, no)| *no);
    noes.map(|(name, _)| name).collect()
}

/// What of an accepted case stands at an end.
fn ends(numbers: Numbers) -> [(&'static str, bool); 8] {
    let Numbers { n, w, h } = numbers;
    [
        ("w 2", w == 2),
        ("w 12", w == 12),
        ("h 1", h == 1),
        ("h 32,768", h == MOST_DISTANCE),
        ("n 0", n == 0),
        ("n 65,536", n == LONGEST),
        ("n below w", n < w),
        ("n equal w", n == w),
    ]
}

impl Report {
    fn add(&mut self, case: &Case, done: &Done) {
        let refused = done.answer < ACCEPTED;
        self.cases += 1;
        self.families.entry(case.family).or_default()[usize::from(refused)] += 1;
        match refused {
            true => self.add_refused(case, done.answer),
            false => self.add_accepted(case, done.answer - ACCEPTED),
        }
        if let (Some(cutting), Some(cut)) = (&case.cutting, &done.cut) {
            self.cut.add(cutting, cut);
        }
    }

    fn add_refused(&mut self, case: &Case, question: u64) {
        assert_eq!(question, QUESTION, "another question refused a case");
        self.refused += 1;
        match noes(case.numbers)[..] {
            [alone] => *self.alone.entry(alone).or_default() += 1,
            _ => self.two += 1,
        }
    }

    fn add_accepted(&mut self, case: &Case, blocks: u64) {
        let Numbers { n, w, h } = case.numbers;
        self.accepted += 1;
        *self.blocks.entry(blocks).or_default() += 1;
        self.capped += usize::from(n.saturating_sub(w) / h > blocks);
        for (name, is) in ends(case.numbers) {
            *self.ends.entry(name).or_default() += usize::from(is);
        }
    }

    /// That every reason to refuse, every number of blocks and every end of what is allowed did occur, and in every
    /// family the answers that it can have, so that the run had something to find.
    pub fn assert_complete(&self) {
        assert!(self.blocks.keys().copied().eq(1..=32), "numbers of blocks");
        assert!(self.capped > 0, "no length for more than 32 blocks");
        for (name, count) in &self.ends {
            assert!(*count > 0, "{name} was not accepted");
        }
        assert_eq!(self.alone.len(), 5, "reasons of 24: {:?}", self.alone);
        assert!(self.two > 0, "no case had two reasons");
        self.cut.assert_complete();
        for (family, _) in FAMILIES {
            let counts = self.families[&family];
            let answers = counts.map(|count| count > 0);
            assert_eq!(answers, family.answers(), "{family:?}: {counts:?}");
        }
    }
}

impl CutReport {
    fn add(&mut self, cutting: &Cutting, cut: &[Cut; 2]) {
        *self.levels.entry(cutting.settings.levels).or_default() += 1;
        for (k, cut) in cut.iter().enumerate() {
            self.refused += usize::from(cut.refused);
            self.could[k] += cut.could;
        }
        let [equal, other] = cut;
        self.zeros += if cutting.byte == 0 { equal.could } else { 0 };
        self.have += other.have;
        match cutting.text {
            Text::Of(content) => drop(self.contents.insert(format!("{content:?}"))),
            Text::Spaced(_) => self.spaced += 1,
            Text::Period(_) => self.periods += 1,
        }
    }

    fn assert_complete(&self) {
        assert!(self.levels.keys().copied().eq(1..=4), "levels");
        assert!(self.refused > 0, "8 refused no tree");
        let ([equal, others], zeros, have) = (self.could, self.zeros, self.have);
        assert!(zeros > 500 && equal - zeros > 500, "{zeros} of {equal}");
        assert!(have > 300, "{have} nodes have the most blocks");
        assert!(others - have > 500, "of {others} nodes {have} have them");
        let contents = self.contents.len();
        assert_eq!(contents, KINDS.len(), "a kind of content did not occur");
        assert!(self.spaced > 0 && self.periods > 0, "texts by distances");
    }
}

impl fmt::Display for Report {
    fn fmt(&self, f: &mut fmt::Formatter) -> fmt::Result {
        write!(
            f,
            "{} cases as the reference has them: accepted {} (by their blocks {}; {} with room for more; {}); refused by {QUESTION} {} (for one reason alone: {}; for more than one {}); {}; accepted and refused of each family: {}",
            self.cases,
            self.accepted,
            counted(&self.blocks, |blocks| format!("{blocks}:")),
            self.capped,
            counted(&self.ends, |name| name.to_string()),
            self.refused,
            counted(&self.alone, |name| name.to_string()),
            self.two,
            self.cut,
            of_families(&self.families),
        )
    }
}

impl fmt::Display for CutReport {
    fn fmt(&self, f: &mut fmt::Formatter) -> fmt::Result {
        write!(
            f,
            "trees of equal bytes and as many of other strings, by their levels {} ({} refused by 8); nodes for which several blocks are allowed: {} of equal bytes, all with one block, {} of them of zeros; {} of other strings, {} with as many as are allowed",
            counted(&self.levels, |levels| format!("{levels}:")),
            self.refused,
            self.could[0],
            self.zeros,
            self.could[1],
            self.have,
        )
    }
}
