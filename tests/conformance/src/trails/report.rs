//! Runs all cases of a seed and counts what they were.

use super::cases::{case, families, Family};
use super::compare::{compare, Calls, Done};
use super::which::{Which, ALL};
use crate::failure::Failure;
use crate::two_threads::in_order;
use reference::rcds::{count, says_only, ACCEPTED};
use std::collections::{BTreeMap, BTreeSet};
use std::fmt;

/// What ran.
#[derive(Default)]
pub struct Report {
    pub number: NumberReport,
    pub order: OrderReport,
    /// Accepted and refused cases of each family.
    families: BTreeMap<Family, [usize; 2]>,
}

/// Orders that were numbered.
#[derive(Default)]
pub struct NumberReport {
    orders: usize,
    number_0: usize,
    between: usize,
    number_4095: usize,
    number_4096: usize,
    refused: usize,
    /// The lengths of the orders that have a number.
    lengths: BTreeSet<usize>,
    /// Those whose number gave the order again.
    back: usize,
    only: OnlyReport,
}

/// Multisets that were ordered.
#[derive(Default)]
pub struct OrderReport {
    multisets: usize,
    accepted: usize,
    number_4095: usize,
    with_id_0: usize,
    by_17: usize,
    by_20: usize,
    lengths: BTreeSet<u64>,
    /// Those whose order gave the number again.
    back: usize,
    only: OnlyReport,
}

/// What was said of being the only trail.
#[derive(Default)]
struct OnlyReport {
    /// The trails that the answers were about.
    which: BTreeMap<Which, usize>,
    /// The lengths of those of which it was said, and of those of which it was not.
    said: BTreeSet<u64>,
    not_said: BTreeSet<u64>,
}

impl OnlyReport {
    fn add(&mut self, length: u64, answer: u64, which: Option<Which>) {
        if let Some(which) = which {
            *self.which.entry(which).or_default() += 1;
        }
        match says_only(answer) {
            true => self.said.insert(length),
            false => self.not_said.insert(length),
        };
    }

    /// That each of the trails came, and that it was said and not said of every length that allows it: fewer
    /// than four ids have no other order, unless one of them is 0.
    fn assert_complete(&self, call: &str) {
        for which in ALL {
            assert!(self.which.contains_key(&which), "{call}: no {which:?}");
        }
        for length in 1..=32 {
            assert!(self.said.contains(&length), "{call}: none of {length} said");
            let others = length < 4 || self.not_said.contains(&length);
            assert!(others, "{call}: no others of {length}");
        }
    }
}

impl fmt::Display for OnlyReport {
    fn fmt(&self, f: &mut fmt::Formatter) -> fmt::Result {
        let which = self.which.iter();
        let which: Vec<String> = which
            .map(|(which, count)| format!("{which:?} {count}"))
            .collect();
        write!(f, "{}", which.join(", "))
    }
}

/// Runs the first cases, so many of them, up to the first that differs.
pub fn run(seed: u64, cases: usize, calls: Calls) -> Result<Report, Failure> {
    let mut report = Report::default();
    let work = |number: usize| {
        let case = case(seed, number);
        Ok((case.family, compare(&case, calls)?))
    };
    in_order(cases, work, |(family, done)| report.add(family, &done))?;
    Ok(report)
}

impl Report {
    fn add(&mut self, family: Family, done: &Done) {
        let answer = match *done {
            Done::Number {
                ids,
                answer,
                which,
                back,
            } => {
                self.number.add(ids, answer, which, back);
                answer
            }
            Done::Order {
                number,
                has_id_0,
                answer,
                which,
                back,
            } => {
                self.order.add(number, answer, which, back);
                self.order.with_id_0 += usize::from(has_id_0);
                answer
            }
        };
        let refused = usize::from(answer < ACCEPTED);
        self.families.entry(family).or_default()[refused] += 1;
    }

    /// That every answer did occur, and in every family both kinds that it can have, so that the
    /// run had something to find.
    pub fn assert_complete(&self) {
        let lengths = &self.number.lengths;
        assert_eq!(lengths.len(), 32, "orders of some length are missing");
        assert!(self.number.number_0 > 0, "no order had number 0");
        assert!(self.number.between > 0, "no number from 1 to 4,094");
        assert!(self.number.number_4095 > 0, "no number 4,095");
        assert!(self.number.number_4096 > 0, "no number above 4,095");
        assert!(self.number.refused > 0, "17 refused no order");
        assert!(self.order.number_4095 > 0, "no order of number 4,095");
        assert!(self.order.with_id_0 > 0, "no order with id 0");
        assert!(self.order.by_17 > 0, "17 refused no multiset");
        assert!(self.order.by_20 > 0, "20 refused no multiset");
        let lengths = &self.order.lengths;
        assert_eq!(lengths.len(), 32, "orders of some length are missing");
        self.number.only.assert_complete("rcds_trail_number");
        self.order.only.assert_complete("rcds_trail_order");
        for family in families() {
            let [accepted, refused] = self.families[&family];
            let (may_be_accepted, may_be_refused) = match family {
                Family::LargeNumbers | Family::HugeCounts => (false, true),
                Family::EveryOrder
                | Family::Order
                | Family::OrderOfAnyNumber
                | Family::OrderAtTheLimit
                | Family::OrderOfFewIds
                | Family::OrderOfOneOrTwo => (true, false),
                _ => (true, true),
            };
            let name = format!("{family:?}");
            assert_eq!(accepted > 0, may_be_accepted, "{name}: {accepted} accepted");
            assert_eq!(refused > 0, may_be_refused, "{name}: {refused} refused");
        }
    }
}

impl NumberReport {
    fn add(&mut self, ids: usize, answer: u64, which: Option<Which>, back: Option<u64>) {
        self.orders += 1;
        self.back += usize::from(back.is_some());
        if answer < ACCEPTED {
            self.refused += 1;
            return;
        }
        self.lengths.insert(ids);
        self.only.add(ids as u64, answer, which);
        match count(answer) {
            0 => self.number_0 += 1,
            4_095 => self.number_4095 += 1,
            4_096 => self.number_4096 += 1,
            _ => self.between += 1,
        }
    }
}

impl OrderReport {
    fn add(&mut self, number: u64, answer: u64, which: Option<Which>, back: Option<u64>) {
        self.multisets += 1;
        self.back += usize::from(back.is_some());
        match answer {
            17 => self.by_17 += 1,
            20 => self.by_20 += 1,
            _ => {
                self.accepted += 1;
                self.number_4095 += usize::from(number == 4_095);
                self.lengths.insert(count(answer));
                self.only.add(count(answer), answer, which);
            }
        }
    }
}

impl fmt::Display for NumberReport {
    fn fmt(&self, f: &mut fmt::Formatter) -> fmt::Result {
        write!(
            f,
            "{} orders as the reference has them: number 0 {}, 1 to 4,094 {}, 4,095 {}, 4,096 {}; refused by 17 {}; {} numbers gave the order again; trails: {}",
            self.orders,
            self.number_0,
            self.between,
            self.number_4095,
            self.number_4096,
            self.refused,
            self.back,
            self.only,
        )
    }
}

impl fmt::Display for OrderReport {
    fn fmt(&self, f: &mut fmt::Formatter) -> fmt::Result {
        write!(
            f,
            "{} multisets as the reference has them: accepted {} ({} of number 4,095, {} with id 0); refused by 17 {}, by 20 {}; {} orders gave the number again; trails: {}",
            self.multisets,
            self.accepted,
            self.number_4095,
            self.with_id_0,
            self.by_17,
            self.by_20,
            self.back,
            self.only,
        )
    }
}
