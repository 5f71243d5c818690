//! Runs all cases of a seed and counts what they were.

use super::cases::{case, families, Family};
use super::compare::{compare, Done, SketchOpen};
use super::forged::Oddity;
use crate::failure::Failure;
use crate::two_threads::in_order;
use reference::opening::{Closed, NotSingle};
use reference::rcds::ACCEPTED;
use std::collections::BTreeMap;
use std::fmt;

/// What ran.
#[derive(Default)]
pub struct Report {
    cases: usize,
    opened: usize,
    /// Opened with no, 1 to 29, 30 to 99 and more shingles taken.
    taken: [usize; 4],
    /// New lists of exactly 4,096 shingles.
    full: usize,
    refused: BTreeMap<u64, usize>,
    /// Reasons of those that 14 refused: in how many cases, and in how many as the only one.
    closed: BTreeMap<Closed, [usize; 2]>,
    /// Cases that 14 refused for positive shingles of the own list and nothing else.
    own_alone: usize,
    /// Cases in which both cell tables were one memory.
    shared: usize,
    /// Cases that 14 refused with a cell that is not single for this reason alone.
    not_single: BTreeMap<NotSingle, usize>,
    /// Cases in which 3q shingles were taken.
    all_takings: usize,
    /// Cases of two lists where each single cell truly holds one shingle: opened and refused, the same from the highest
    /// cell down.
    truthful: [usize; 2],
    /// The other cases of two lists: from the highest cell down the same, and not.
    not_truthful: [usize; 2],
    /// Opened and refused cases of each family.
    families: BTreeMap<Family, [usize; 2]>,
}

/// Runs the first cases, so many of them, up to the first that differs.
pub fn run(seed: u64, cases: usize, function: SketchOpen) -> Result<Report, Failure> {
    let mut report = Report::default();
    let work = |number: usize| {
        let case = case(seed, number);
        Ok((case.family, compare(&case, function)?))
    };
    in_order(cases, work, |(family, done)| report.add(family, &done))?;
    Ok(report)
}

impl Report {
    fn add(&mut self, family: Family, done: &Done) {
        let refused = done.answer < ACCEPTED;
        self.cases += 1;
        self.families.entry(family).or_default()[usize::from(refused)] += 1;
        self.all_takings += usize::from(done.all_takings);
        self.own_alone += usize::from(done.own_alone);
        self.shared += usize::from(done.shared);
        match done.from_the_highest {
            Some([true, _]) => self.truthful[usize::from(refused)] += 1,
            Some([false, alike]) => self.not_truthful[usize::from(!alike)] += 1,
            None => {}
        }
        if !refused {
            self.opened += 1;
            self.full += usize::from(done.answer == ACCEPTED + 4_096);
            let size = match done.taken {
                0 => 0,
                1..=29 => 1,
                30..=99 => 2,
                _ => 3,
            };
            self.taken[size] += 1;
            return;
        }
        *self.refused.entry(done.answer).or_default() += 1;
        for &closed in &done.closed {
            let counts = self.closed.entry(closed).or_default();
            counts[0] += 1;
            counts[1] += usize::from(done.closed.len() == 1);
        }
        for &reason in &done.not_single {
            *self.not_single.entry(reason).or_default() += 1;
        }
    }

    /// That every answer and every reason did occur, and in every family both answers that it can
    /// have, so that the run had something to find.
    pub fn assert_complete(&self) {
        let refused: Vec<u64> = self.refused.keys().copied().collect();
        assert_eq!(refused, [3, 5, 7, 14], "questions that refused a case");
        assert!(self.taken.iter().all(|&count| count > 0), "sizes opened");
        assert!(self.full > 0, "no new list had 4,096 shingles");
        assert!(self.all_takings > 0, "no case had 3q takings");
        assert!(self.own_alone > 0, "none for positive own ones alone");
        assert!(self.shared > 0, "no two cell tables were one memory");
        for orders in [self.truthful, self.not_truthful] {
            assert!(orders.iter().all(|&count| count > 0), "orders {orders:?}");
        }
        // "a difference of exactly one shingle always opens" (document 02, request 13)
        let [_, refused_ones] = self.families[&Family::OneShingle];
        assert_eq!(refused_ones, 0, "differences of one shingle were refused");
        for closed in [
            Closed::CellsLeft,
            Closed::TakenTwice,
            Closed::NegativeNotOwn,
            Closed::PositiveOwn,
            Closed::TooMany,
            Closed::PairTwice,
        ] {
            let [all, alone] = self.closed.get(&closed).copied().unwrap_or_default();
            assert!(all > 0, "{closed:?} closed no sketch");
            // A positive shingle of the own list is never all that is amiss: if it stays there, its pair
            // is in the new list twice, and if it was taken as negative too, it was taken twice.
            let never_alone = closed == Closed::PositiveOwn;
            assert_eq!(alone == 0, never_alone, "{closed:?} alone closed {alone}");
        }
        // A tail from 2^32 on has a level above L as well.
        for reason in [
            NotSingle::Level,
            NotSingle::Count,
            NotSingle::Check,
            NotSingle::Place,
        ] {
            let count = self.not_single.get(&reason).copied().unwrap_or_default();
            assert!(count > 0, "{reason:?} alone left no cell");
        }
        for (family, _) in families() {
            let [opened, refused] = self.families[&family];
            let (may_open, may_be_refused) = expected(family);
            let name = format!("{family:?}");
            assert!(opened > 0 || !may_open, "{name}: none opened");
            assert!(refused > 0 || !may_be_refused, "{name}: none refused");
        }
    }
}

/// Whether cases of the family may open, and whether they may be refused.
fn expected(family: Family) -> (bool, bool) {
    match family {
        Family::Equal | Family::OneShingle => (true, false),
        Family::AnyCells | Family::PositiveOwn | Family::NegativeNotOwn => (false, true),
        Family::TakenTwice => (false, true),
        Family::Forged(_) => (false, true),
        Family::Odd(oddity) => (true, oddity != Oddity::Garbage),
        _ => (true, true),
    }
}

impl fmt::Display for Report {
    fn fmt(&self, f: &mut fmt::Formatter) -> fmt::Result {
        let list = |counts: Vec<String>| counts.join(", ");
        let refused = self.refused.iter();
        let refused = refused.map(|(number, count)| format!("by {number} {count}"));
        let closed = self.closed.iter();
        let closed = closed.map(|(why, [all, alone])| format!("{why:?} {all} and {alone}"));
        let not_single = self.not_single.iter();
        let not_single = not_single.map(|(why, count)| format!("{why:?} {count}"));
        let families = self.families.iter();
        let families = families
            .map(|(family, [opened, refused])| format!("{family:?} {opened} and {refused}"));
        write!(
            f,
            "{} cases as the reference has them: opened {} (nothing taken {}, 1 to 29 shingles {}, 30 to 99 {}, more {}; {} to 4,096 shingles); refused {}; by 14, and for one reason alone: {}; for positive shingles of the own list and nothing else {}; with a cell that is not single for one reason alone: {}; {} with 3q takings; {} with both cell tables in one memory; of two lists, where each single cell truly holds one shingle, {} opened and {} refused, from the highest cell down too, of the others {} the same and {} not; opened and refused of each family: {}",
            self.cases,
            self.opened,
            self.taken[0],
            self.taken[1],
            self.taken[2],
            self.taken[3],
            self.full,
            list(refused.collect()),
            list(closed.collect()),
            self.own_alone,
            list(not_single.collect()),
            self.all_takings,
            self.shared,
            self.truthful[0],
            self.truthful[1],
            self.not_truthful[0],
            self.not_truthful[1],
            list(families.collect()),
        )
    }
}
