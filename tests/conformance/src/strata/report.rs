//! Runs all cases of a seed and counts what they were.

use super::cases::{case, families, is_of_both, Case, Family, Tables};
use super::compare::{compare, Built, Calls, Done, Estimated, Outcome, Refused};
use super::zeros::ZERO_BITS;
use crate::counts::{counted, of_families};
use crate::failure::Failure;
use crate::two_threads::in_order;
use reference::opening::{Closed, NotSingle, MOST_SHINGLES};
use reference::rcds::ACCEPTED;
use reference::strata::STRATA;
use reference::{receiver_state, sender};
use std::collections::{BTreeMap, BTreeSet};
use std::fmt;

/// The questions that both calls ask.
const QUESTIONS: [u64; 7] = [1, 2, 3, 4, 5, 6, 7];

/// What ran, of each call.
#[derive(Default)]
pub struct Report {
    pub build: BuildReport,
    pub estimate: EstimateReport,
}

/// Cases of one call that were accepted and refused.
#[derive(Default)]
struct Asked {
    cases: usize,
    accepted: usize,
    refused: BTreeMap<u64, usize>,
    /// Two questions that had a no, the first of which was the answer.
    together: BTreeSet<(u64, u64)>,
    /// Cases in which one table of strata was too short, and nothing else amiss: the only one or the other end's, and the
    /// own.
    strata_alone: [usize; 2],
    /// Accepted with a state as long as a sender's, with one that is longer and shorter than a receiver's, and with others.
    states: [usize; 3],
    /// Pieces that were lent as null.
    null: BTreeSet<&'static str>,
    /// Cases in which two pieces were one memory.
    shared: usize,
    /// Accepted and refused cases of each family.
    families: BTreeMap<Family, [usize; 2]>,
}

/// What ran of `rcds_strata_build`.
#[derive(Default)]
pub struct BuildReport {
    asked: Asked,
    /// How many lists had shingles whose F(3) ends in so many zero bits.
    zeros: BTreeMap<u32, usize>,
    /// Lists without a shingle, of 4,096 and of more.
    empty: usize,
    full: usize,
    long: usize,
    /// Tables of 192 cells, and longer ones.
    exact: usize,
    past: usize,
}

/// What ran of `rcds_strata_estimate`.
#[derive(Default)]
pub struct EstimateReport {
    asked: Asked,
    /// Cases in which this stratum was the first that did not open, or none.
    first_closed: BTreeMap<Option<usize>, usize>,
    /// Why it did not: in how many cases, and in how many as the only reason.
    closed: BTreeMap<Closed, [usize; 2]>,
    /// Cases with a cell in it that is not single for this reason alone.
    not_single: BTreeMap<NotSingle, usize>,
    /// Cases in which 12 shingles were taken from it.
    all_takings: usize,
    /// Cases with positive shingles, with negative ones, and with both.
    signs: [usize; 3],
    /// Cases with a shingle whose F(3) ends in so many zero bits.
    zeros: BTreeMap<u32, usize>,
    /// Cases by the most shingles that one stratum listed.
    most: BTreeMap<usize, usize>,
    /// Cases with a shingle of another stratum, and with one that is own there.
    foreign: usize,
    foreign_own: usize,
    /// Cases with a stratum that opened though its new list has more than 4,096 shingles, or a pair twice.
    too_many: usize,
    pair_twice: usize,
    largest: u64,
}

/// Runs the first cases, so many of them, up to the first that differs.
pub fn run(seed: u64, cases: usize, calls: Calls) -> Result<Report, Failure> {
    let mut report = Report::default();
    let work = |number: usize| {
        let case = case(seed, number);
        let done = compare(&case, calls)?;
        Ok((case, done))
    };
    in_order(cases, work, |(case, done)| report.add(&case, &done))?;
    Ok(report)
}

impl Report {
    fn add(&mut self, case: &Case, done: &Done) {
        match case.tables {
            Tables::Build { .. } => self.build.asked.add(case, done),
            Tables::Estimate { .. } => self.estimate.asked.add(case, done),
        }
        match &done.outcome {
            Outcome::Refused(_) => {}
            Outcome::Built(built) => self.build.add(built),
            Outcome::Estimated(found) => self.estimate.add(found, done.answer - ACCEPTED),
        }
    }

    /// That every kind of case that is named here did occur, of both calls, so that the run had something to find.
    pub fn assert_complete(&self) {
        self.build.assert_complete();
        self.estimate.assert_complete();
        for (family, _) in families() {
            self.estimate.asked.assert_family(family);
            if is_of_both(family) {
                self.build.asked.assert_family(family);
            }
        }
    }
}

impl Asked {
    fn add(&mut self, case: &Case, done: &Done) {
        self.cases += 1;
        self.shared += usize::from(done.shared);
        let empty = case
            .pieces()
            .into_iter()
            .filter(|(_, bytes)| bytes.is_empty());
        self.null.extend(empty.map(|(name, _)| name));
        let counts = self.families.entry(case.family).or_default();
        if let Outcome::Refused(refused) = &done.outcome {
            counts[1] += 1;
            self.add_refused(done.answer, refused);
            return;
        }
        counts[0] += 1;
        self.accepted += 1;
        let kind = match case.state.len() {
            sender::STATE_BYTES => 0,
            length if length < receiver_state::STATE_BYTES => 1,
            _ => 2,
        };
        self.states[kind] += 1;
    }

    fn add_refused(&mut self, answer: u64, refused: &Refused) {
        *self.refused.entry(answer).or_default() += 1;
        let later = refused.noes.iter().filter(|no| **no > answer);
        self.together.extend(later.map(|&no| (answer, no)));
        if let Some(table) = refused.strata_alone {
            self.strata_alone[table] += 1;
        }
    }

    /// That each question refused, also where each later one had a no too, and that so many pieces were lent as null and
    /// so many tables of strata were all that was too short.
    fn assert_complete(&self, pieces: usize, strata: usize) {
        let refused: Vec<u64> = self.refused.keys().copied().collect();
        assert_eq!(refused, QUESTIONS, "questions that refused a case");
        for first in QUESTIONS {
            for later in first + 1..=7 {
                let met = self.together.contains(&(first, later));
                assert!(met, "{first} did not refuse where {later} had a no");
            }
        }
        let alone = &self.strata_alone[..strata];
        assert!(alone.iter().all(|&count| count > 0), "tables too short");
        assert!(self.states.iter().all(|&count| count > 0), "states");
        assert_eq!(self.null.len(), pieces, "null: {:?}", self.null);
        assert!(self.shared > 0, "no two pieces were one memory");
    }

    /// That the family had the answers that it can have.
    fn assert_family(&self, family: Family) {
        let [accepted, refused] = self.families.get(&family).copied().unwrap_or_default();
        let may_be_refused = matches!(
            family,
            Family::EdgeStates | Family::StateLengths | Family::OneSize | Family::Several
        );
        assert!(accepted > 0, "{family:?}: none accepted");
        assert_eq!(refused > 0, may_be_refused, "{family:?}: {refused} refused");
    }
}

impl BuildReport {
    fn add(&mut self, built: &Built) {
        for &zeros in &built.zeros {
            *self.zeros.entry(zeros).or_default() += 1;
        }
        self.empty += usize::from(built.shingles == 0);
        self.full += usize::from(built.shingles == MOST_SHINGLES);
        self.long += usize::from(built.shingles > MOST_SHINGLES);
        self.exact += usize::from(built.past == 0);
        self.past += usize::from(built.past > 0);
    }

    fn assert_complete(&self) {
        self.asked.assert_complete(6, 1);
        for zeros in (0..STRATA as u32).chain(ZERO_BITS) {
            assert!(self.zeros.contains_key(&zeros), "no F(3) of {zeros} zeros");
        }
        assert!(self.empty > 0, "no list was empty");
        assert!(self.full > 0, "no list had 4,096 shingles");
        assert!(self.long > 0, "no list had more than 4,096 shingles");
        assert!(self.exact > 0, "no table was exactly long enough");
        assert!(self.past > 0, "no table was longer");
    }
}

impl EstimateReport {
    fn add(&mut self, found: &Estimated, estimate: u64) {
        *self.first_closed.entry(found.first_closed).or_default() += 1;
        for &closed in &found.closed {
            let counts = self.closed.entry(closed).or_default();
            counts[0] += 1;
            counts[1] += usize::from(found.closed.len() == 1);
        }
        for &reason in &found.not_single {
            *self.not_single.entry(reason).or_default() += 1;
        }
        for &zeros in &found.zeros {
            *self.zeros.entry(zeros).or_default() += 1;
        }
        let (positive, negative) = (found.positive > 0, found.negative > 0);
        self.signs[0] += usize::from(positive);
        self.signs[1] += usize::from(negative);
        self.signs[2] += usize::from(positive && negative);
        *self.most.entry(found.most).or_default() += 1;
        self.all_takings += usize::from(found.all_takings);
        self.foreign += usize::from(found.foreign);
        self.foreign_own += usize::from(found.foreign_own);
        self.too_many += usize::from(found.too_many);
        self.pair_twice += usize::from(found.pair_twice);
        self.largest = self.largest.max(estimate);
    }

    fn assert_complete(&self) {
        self.asked.assert_complete(7, 2);
        for first in (0..STRATA).map(Some).chain([None]) {
            let met = self.first_closed.contains_key(&first);
            assert!(met, "{first:?} was not the first that did not open");
        }
        self.assert_reasons();
        for zeros in (0..STRATA as u32).chain(ZERO_BITS) {
            assert!(self.zeros.contains_key(&zeros), "no F(3) of {zeros} zeros");
        }
        assert!(self.signs.iter().all(|&count| count > 0), "signs");
        // At this width three cells are one of four triples, and a stratum that opens lists at most one shingle of each.
        let most: Vec<usize> = self.most.keys().copied().collect();
        assert_eq!(most, [0, 1, 2, 3, 4], "shingles of a stratum");
        assert!(self.all_takings > 0, "no stratum had 12 takings");
        assert!(self.foreign > 0, "no shingle of another stratum");
        assert!(self.foreign_own > 0, "no own one of another stratum");
        assert!(self.too_many > 0, "no list of more than 4,096 opened");
        assert!(self.pair_twice > 0, "no list with a pair twice opened");
        assert!(self.largest > 1 << 16, "no estimate above 65,536");
    }

    fn assert_reasons(&self) {
        for (closed, decides) in [
            (Closed::CellsLeft, true),
            // What is taken is taken from all three cells of a triple. They end at 0 only if they were equal, and then the
            // first taking empties them: where a shingle is taken twice, cells are left.
            (Closed::TakenTwice, false),
            (Closed::NegativeNotOwn, true),
            // Size and pairs are not asked, so that here it can be all that is amiss.
            (Closed::PositiveOwn, true),
        ] {
            let [all, alone] = self.closed.get(&closed).copied().unwrap_or_default();
            assert!(all > 0, "{closed:?} closed no stratum");
            assert_eq!(alone > 0, decides, "{closed:?} alone closed {alone}");
        }
        assert_eq!(self.closed.len(), 4, "size or pairs closed a stratum");
        // A tail from 2^32 on has a level above L as well.
        for reason in [
            NotSingle::Level,
            NotSingle::Count,
            NotSingle::Check,
            NotSingle::Place,
        ] {
            let count = self.not_single.get(&reason).copied().unwrap_or_default();
            assert!(count > 0, "{reason:?} alone left no cell");
        }
    }
}

impl fmt::Display for Asked {
    fn fmt(&self, f: &mut fmt::Formatter) -> fmt::Result {
        write!(
            f,
            "{} with a sender's state, {} with a longer one, {} with a receiver's; refused {}, with {} pairs of questions that had a no; one table of strata too short and nothing else amiss {:?}; {} pieces as null; {} with two pieces in one memory; accepted and refused of each family: {}",
            self.states[0],
            self.states[1],
            self.states[2],
            counted(&self.refused, |question| format!("by {question}")),
            self.together.len(),
            self.strata_alone,
            self.null.len(),
            self.shared,
            of_families(&self.families),
        )
    }
}

impl fmt::Display for BuildReport {
    fn fmt(&self, f: &mut fmt::Formatter) -> fmt::Result {
        write!(
            f,
            "{} cases as the reference has them: accepted {} (with an F(3) of so many zero bits {}; {} lists empty, {} of 4,096 shingles, {} of more; {} tables exactly long enough, {} longer), {}",
            self.asked.cases,
            self.asked.accepted,
            counted(&self.zeros, |zeros| format!("{zeros}:")),
            self.empty,
            self.full,
            self.long,
            self.exact,
            self.past,
            self.asked,
        )
    }
}

impl fmt::Display for EstimateReport {
    fn fmt(&self, f: &mut fmt::Formatter) -> fmt::Result {
        let closed = self.closed.iter();
        let closed = closed.map(|(why, [all, alone])| format!("{why:?} {all} and {alone}"));
        let first = |first: &Option<usize>| match first {
            Some(stratum) => format!("{stratum}:"),
            None => "none:".to_string(),
        };
        write!(
            f,
            "{} cases as the reference has them: accepted {} (by the first stratum that does not open {}; for these reasons, and for one alone: {}; with a cell that is not single for one reason alone: {}; {} with 12 takings; {} with positive shingles, {} with negative ones, {} with both; with an F(3) of so many zero bits {}; by the most that a stratum lists {}; {} with a shingle of another stratum, {} with an own one; {} to more than 4,096 shingles, {} with a pair twice; the largest estimate {}), {}",
            self.asked.cases,
            self.asked.accepted,
            counted(&self.first_closed, first),
            closed.collect::<Vec<_>>().join(", "),
            counted(&self.not_single, |why| format!("{why:?}")),
            self.all_takings,
            self.signs[0],
            self.signs[1],
            self.signs[2],
            counted(&self.zeros, |zeros| format!("{zeros}:")),
            counted(&self.most, |most| format!("{most}:")),
            self.foreign,
            self.foreign_own,
            self.too_many,
            self.pair_twice,
            self.largest,
            self.asked,
        )
    }
}
