//! Runs all cases of a seed and counts what they were.

use super::cases::{case, families, Case, Family};
use super::compare::{compare, MessageType};
use super::damage::Damage;
use crate::failure::Failure;
use crate::two_threads::in_order;
use reference::message::{parse, Body};
use reference::rcds::ACCEPTED;
use std::collections::BTreeMap;
use std::fmt;

/// A message of more bytes than this is a long one.
const LONG: usize = 900_000;

/// Whether a composition has its number.
#[derive(Clone, Copy, Debug, PartialEq, Eq, PartialOrd, Ord)]
enum Form {
    Omits,
    Carries,
}

/// The form of a well-formed composition, and whether it has references.
fn form(message: &[u8]) -> Option<(Form, bool)> {
    let Body::Composition {
        number, references, ..
    } = parse(message)?.body
    else {
        return None;
    };
    let form = match number {
        Some(_) => Form::Carries,
        None => Form::Omits,
    };
    Some((form, !references.is_empty()))
}

/// What ran.
#[derive(Default)]
pub struct Report {
    cases: usize,
    /// Well-formed messages by type.
    accepted: BTreeMap<u64, usize>,
    refused: usize,
    /// Well-formed compositions that omit the number and that carry it, each without references and with some.
    forms: BTreeMap<(Form, bool), usize>,
    /// Accepted and refused cases of each family.
    families: BTreeMap<Family, [usize; 2]>,
    /// Accepted and refused messages of about a megabyte.
    long: [usize; 2],
    bytes: usize,
}

/// Runs the first cases, so many of them, up to the first that differs.
pub fn run(seed: u64, cases: usize, function: MessageType) -> Result<Report, Failure> {
    let mut report = Report::default();
    let work = |number: usize| {
        let case = case(seed, number);
        let answer = compare(&case, function)?;
        Ok((case, answer))
    };
    in_order(cases, work, |(case, answer)| report.add(&case, answer))?;
    Ok(report)
}

impl Report {
    fn add(&mut self, case: &Case, answer: u64) {
        let refused = answer == 10;
        self.cases += 1;
        self.bytes += case.message.len();
        self.families.entry(case.family).or_default()[usize::from(refused)] += 1;
        self.long[usize::from(refused)] += usize::from(case.message.len() > LONG);
        if let Some(form) = form(&case.message) {
            *self.forms.entry(form).or_default() += 1;
        }
        match refused {
            true => self.refused += 1,
            false => *self.accepted.entry(answer - ACCEPTED).or_default() += 1,
        }
    }

    /// That every answer did occur, and in every family both kinds that it can have, so that the
    /// run had something to find.
    pub fn assert_complete(&self) {
        let types: Vec<u64> = self.accepted.keys().copied().collect();
        assert_eq!(types, [1, 2, 3, 4, 5, 6], "types that were accepted");
        assert!(self.refused > 0, "no case was refused");
        assert_eq!(self.forms.len(), 4, "forms of compositions");
        assert!(self.long.iter().all(|&count| count > 0), "long messages");
        for family in families() {
            let [accepted, refused] = self.families[&family];
            let never = matches!(
                family,
                Family::Damaged(Damage::Order(_) | Damage::Numbers(_))
            );
            let may_be_accepted =
                !never && !matches!(family, Family::AnyBytes | Family::WrappedWidth);
            let always = matches!(family, Family::Valid | Family::BothForms);
            let name = format!("{family:?}");
            assert!(accepted > 0 || !may_be_accepted, "{name}: none accepted");
            assert!(accepted == 0 || !never, "{name}: one accepted");
            assert_eq!(refused == 0, always, "{name}: {refused} refused");
        }
    }
}

impl fmt::Display for Report {
    fn fmt(&self, f: &mut fmt::Formatter) -> fmt::Result {
        let types = self.accepted.iter();
        let types: Vec<String> = types
            .map(|(number, count)| format!("{number} {count}"))
            .collect();
        let forms = self.forms.iter();
        let forms: Vec<String> = forms
            .map(|((form, references), count)| format!("{form:?} {references} {count}"))
            .collect();
        let families = self.families.iter();
        let families: Vec<String> = families
            .map(|(family, [accepted, refused])| format!("{family:?} {accepted} and {refused}"))
            .collect();
        write!(
            f,
            "{} messages, {} MB, as the reference has them: type {}; compositions, with references or without: {}; refused by 10 {}; of about a megabyte {} and {} refused; accepted and refused of each family: {}",
            self.cases,
            self.bytes / 1_000_000,
            types.join(", "),
            forms.join(", "),
            self.refused,
            self.long[0],
            self.long[1],
            families.join(", "),
        )
    }
}
