//! Runs all cases of a seed and counts what they were.

use super::cases::{case, Case, Family, FAMILIES};
use super::compare::{compare, Compared, Done, Reply};
use super::form::{Form, FORMS};
use crate::content::KINDS;
use crate::failure::Failure;
use crate::two_threads::in_order;
use reference::rcds::ACCEPTED;
use std::collections::{BTreeMap, BTreeSet};
use std::fmt;

/// The questions that a reply asks.
const QUESTIONS: [u64; 10] = [1, 2, 3, 4, 5, 6, 7, 10, 11, 20];

/// What ran.
#[derive(Default)]
pub struct Report {
    cases: usize,
    /// Accepted, by the type of the reply.
    accepted: BTreeMap<u32, usize>,
    refused: BTreeMap<u64, usize>,
    /// Compositions whose references rise, refused by 11, and do not rise, refused by 10; and those with a
    /// number word where none may stand, refused by 10.
    rising_by_11: usize,
    not_rising_by_10: usize,
    misplaced_by_10: usize,
    /// Compositions by their forms; and of the cases of trees of which every node is asked for.
    forms: BTreeMap<Form, usize>,
    forms_of_trees: BTreeMap<Form, usize>,
    /// Cases of each comparison: accepted, refused by 20, and how many are as the reference has them.
    compared: BTreeMap<Compared, [usize; 3]>,
    /// Accepted replies that are no message.
    no_messages: usize,
    /// Replies that fill the buffer exactly.
    exact_room: usize,
    /// Literals of nodes above the last level.
    high_numbers: usize,
    /// Literals without bytes, and of 65,536.
    empty: usize,
    longest: usize,
    most_references: usize,
    largest_count: u32,
    contents: BTreeSet<String>,
    /// Accepted and refused cases of each family.
    families: BTreeMap<Family, [usize; 2]>,
}

/// Runs the first cases, so many of them, up to the first that differs.
pub fn run(seed: u64, cases: usize, function: Reply) -> Result<Report, Failure> {
    let mut report = Report::default();
    let work = |number: usize| {
        let case = case(seed, number);
        let done = compare(&case, function)?;
        Ok((case, done))
    };
    in_order(cases, work, |(case, done)| report.add(&case, &done))?;
    Ok(report)
}

impl Report {
    fn add(&mut self, case: &Case, done: &Done) {
        let refused = done.answer < ACCEPTED;
        self.cases += 1;
        self.contents.insert(format!("{:?}", case.content));
        self.families.entry(case.family).or_default()[usize::from(refused)] += 1;
        if !refused || done.answer == 20 {
            let counts = self.compared.entry(done.compared).or_default();
            counts[usize::from(refused)] += 1;
            counts[2] += usize::from(done.same);
        }
        match (case.family, done.answer) {
            (Family::Rising, 11) => self.rising_by_11 += 1,
            (Family::NotRising, 10) => self.not_rising_by_10 += 1,
            (Family::Misplaced, 10) => self.misplaced_by_10 += 1,
            _ => {}
        }
        if refused {
            *self.refused.entry(done.answer).or_default() += 1;
            return;
        }
        match done.reply_type {
            0 => self.no_messages += 1,
            number => *self.accepted.entry(number).or_default() += 1,
        }
        self.exact_room += usize::from(done.answer - ACCEPTED == case.room as u64);
        self.high_numbers += usize::from(done.high_number);
        if let Some(form) = done.form {
            *self.forms.entry(form).or_default() += 1;
            let of_trees = self.forms_of_trees.entry(form).or_default();
            *of_trees += usize::from(case.family == Family::EveryNode);
        }
        self.empty += usize::from(done.reply_type == 5 && done.bytes == 0);
        self.longest += usize::from(done.bytes == 65_536);
        if done.compared == Compared::Exact {
            self.most_references = self.most_references.max(done.references);
            self.largest_count = self.largest_count.max(done.largest_count);
        }
    }

    /// That every answer and every type of reply did occur, and in every family both answers that it
    /// can have, so that the run had something to find.
    pub fn assert_complete(&self) {
        let accepted: Vec<u32> = self.accepted.keys().copied().collect();
        assert_eq!(accepted, [3, 4, 5, 6], "types of replies");
        let refused: Vec<u64> = self.refused.keys().copied().collect();
        assert_eq!(refused, QUESTIONS, "questions that refused a case");
        assert!(self.exact_room > 0, "no reply filled its buffer");
        assert!(self.high_numbers > 0, "no trail number was above 4,095");
        assert!(self.longest > 0, "no literal had 65,536 bytes");
        assert!(self.empty > 0, "no literal was empty");
        assert!(
            self.most_references == 32,
            "no composition of 32 references"
        );
        assert!(self.largest_count >= 16, "no large count of a reference");
        assert_eq!(self.compared.len(), 3, "comparisons");
        for form in FORMS {
            let [all, of_trees] = [&self.forms, &self.forms_of_trees]
                .map(|forms| forms.get(&form).copied().unwrap_or(0));
            assert!(all >= 50 && of_trees >= 5, "{form:?}: {all}, {of_trees}");
        }
        let compositions = [
            (Family::Rising, self.rising_by_11),
            (Family::NotRising, self.not_rising_by_10),
            (Family::Misplaced, self.misplaced_by_10),
        ];
        for (family, count) in compositions {
            assert_eq!(self.families[&family], [0, count], "{family:?}");
        }
        let contents = self.contents.len();
        assert_eq!(contents, KINDS.len(), "a kind of content did not occur");
        for (family, _) in FAMILIES {
            let [accepted, refused] = self.families[&family];
            let name = format!("{family:?}");
            assert!(
                accepted > 0 || !is_accepted(family),
                "{name}: none accepted"
            );
            let none = is_small(family) || family == Family::EveryNode;
            assert!(refused > 0 || none, "{name}: none refused");
        }
    }
}

/// Whether some messages of the family are replied to.
fn is_accepted(family: Family) -> bool {
    !matches!(
        family,
        Family::OtherType | Family::Rising | Family::NotRising | Family::Misplaced
    )
}

/// Whether the family has so few cases that none of them may be refused.
fn is_small(family: Family) -> bool {
    matches!(
        family,
        Family::ManyNodes | Family::Long | Family::LateShingles
    )
}

impl fmt::Display for Report {
    fn fmt(&self, f: &mut fmt::Formatter) -> fmt::Result {
        let list = |counts: Vec<String>| counts.join(", ");
        let accepted = self.accepted.iter();
        let accepted = accepted.map(|(number, count)| format!("type {number} {count}"));
        let refused = self.refused.iter();
        let refused = refused.map(|(number, count)| format!("by {number} {count}"));
        let compared = self.compared.iter();
        let compared = compared.map(|(how, [accepted, refused, same])| {
            format!("{how:?} {accepted}, {refused}, {same}")
        });
        let [forms, of_trees] = [&self.forms, &self.forms_of_trees].map(|forms| {
            let forms = forms.iter();
            list(
                forms
                    .map(|(form, count)| format!("{form:?} {count}"))
                    .collect(),
            )
        });
        let families = self.families.iter();
        let families = families
            .map(|(family, [accepted, refused])| format!("{family:?} {accepted} and {refused}"));
        write!(
            f,
            "{} cases: accepted {} and {} that are no message ({} fill the buffer, {} literals for a number above 4,095, {} empty, {} of 65,536 bytes; at most {} references, largest count {}; numbers of compositions: {}, and of trees whose every node is asked for: {}); refused {}; compositions that rise refused by 11 {}, others by 10 {}, and with a number elsewhere by 10 {}; accepted, refused by 20, and as the reference has them of each comparison: {}; accepted and refused of each family: {}",
            self.cases,
            list(accepted.collect()),
            self.no_messages,
            self.exact_room,
            self.high_numbers,
            self.empty,
            self.longest,
            self.most_references,
            self.largest_count,
            forms,
            of_trees,
            list(refused.collect()),
            self.rising_by_11,
            self.not_rising_by_10,
            self.misplaced_by_10,
            compared.collect::<Vec<_>>().join("; "),
            list(families.collect()),
        )
    }
}
