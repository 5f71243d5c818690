//! Runs sessions of a seed and counts what they came to.

use super::calls::Calls;
use super::cases::{case, Family, FAMILIES};
use super::counts::{lendings, Call, Counts, ALONE, CALLS};
use super::course;
use super::forged::{forgeries, OTHER_RULES};
use super::other_forms::other_forms;
use crate::failure::Failure;
use crate::messages::order::DISORDERS;
use crate::replies::form::FORMS;
use crate::two_threads::in_order;
use reference::rcds::ACCEPTED;
use std::collections::BTreeMap;
use std::fmt;

/// What ran.
#[derive(Default)]
pub struct Report {
    sessions: usize,
    counts: Counts,
    /// Sessions of each family, and how many of them handed a string over.
    families: BTreeMap<Family, [usize; 2]>,
}

/// Runs the first sessions, so many of them, up to the first that differs.
pub fn run(seed: u64, sessions: usize, calls: &Calls) -> Result<Report, Failure> {
    let mut report = Report::default();
    let work = |number: usize| {
        let case = case(seed, number);
        Ok((case.family, course::run(&case, calls)?))
    };
    in_order(sessions, work, |(family, counts)| {
        report.add(family, &counts)
    })?;
    Ok(report)
}

impl Report {
    fn add(&mut self, family: Family, counts: &Counts) {
        self.sessions += 1;
        self.counts.add(counts);
        let family = self.families.entry(family).or_default();
        family[0] += 1;
        family[1] += usize::from(counts.of(Call::Take, ACCEPTED) > 0);
    }

    /// That every call gave every answer that it has, that every type of message and every forgery
    /// came, and that the bounds were reached, so that the run had something to find.
    pub fn assert_complete(&self) {
        for call in CALLS {
            let name = call.name();
            for answer in call.answers() {
                let count = self.counts.of(call, answer);
                assert!(count > 0, "{name} never answered {answer}");
            }
        }
        let counts = &self.counts;
        assert!(counts.replied.keys().eq(&[3, 4, 5, 6]), "types replied");
        assert!(counts.accepted.keys().eq(&[3, 4, 5]), "types accepted");
        assert!(counts.forged.keys().copied().eq(forgeries()), "forgeries");
        assert!(counts.most_accepted >= 4_097, "no session of 4,097 replies");
        assert_eq!(counts.most_pending, 128, "no pile was full");
        assert_eq!(counts.longest, 65_536, "no string of 65,536 bytes");
        let some = [
            ("the sender's string handed over", counts.senders_string),
            ("handed over by an opening", counts.by_opening),
            ("literal above the last level", counts.literals_above),
            ("empty literal", counts.literals_empty),
            ("accepted after one not rising", counts.accepted_after),
            ("accepted after other forms", counts.accepted_after_forms),
        ];
        for (what, count) in some {
            assert!(count > 0, "{what}: none");
        }
        assert_kinds(counts);
        let never = [Family::Endless, Family::Announced, Family::Sum];
        for (family, _) in FAMILIES {
            let [_, handed] = self.families[&family];
            assert!(handed > 0 || never.contains(&family), "{family:?}");
        }
    }
}

/// That every condition refused a message alone, and every other rule an opening, that references came in every
/// disorder and compositions in every form, and that pieces were lent in every way.
fn assert_kinds(counts: &Counts) {
    for alone in ALONE {
        assert!(counts.alone.contains_key(&alone), "{alone:?} alone: none");
    }
    for rule in OTHER_RULES {
        let met = counts.rules.contains_key(&rule);
        assert!(met, "rule {rule} met by 12 alone: none");
    }
    for disorder in DISORDERS {
        let met = counts.not_rising.contains_key(&disorder);
        assert!(met, "{disorder:?} met by 10: none");
    }
    for form in FORMS {
        let accepted = counts.forms.contains_key(&form);
        assert!(accepted, "{form:?} accepted: none");
    }
    for form in other_forms() {
        let lent = counts.other_forms.contains_key(&form);
        assert!(lent, "{form:?}: none");
    }
    for call in CALLS {
        for &lending in lendings(call) {
            let is = counts.lendings.contains_key(&(call, lending));
            assert!(is, "{}, {lending:?}: none", call.name());
        }
    }
}

impl fmt::Display for Report {
    fn fmt(&self, f: &mut fmt::Formatter) -> fmt::Result {
        let counts = &self.counts;
        let calls: usize = counts.answers.values().sum();
        let families = self.families.iter();
        let families = families
            .map(|(family, [sessions, handed])| format!("{family:?} {sessions} and {handed}"));
        write!(
            f,
            "{} sessions, {calls} calls; handed over {} strings ({} the sender's, {} by the opening alone, the longest of {} bytes); at most {} replies accepted and {} nodes pending; accepted types {}; literals above the last level {}, empty {}; compositions: {}; taken over altered memory {} and altered states {}; refused by one condition alone: {}; openings met by 12 for their rule alone {}, of them of rule 2 {}; compositions not rising, met by 10 at every call: {}, and accepted right after {}; in other forms: {}, and accepted right after {}; pieces lent as null and in one memory: {}; sessions and hand-overs of each family: {}; forged messages, accepted and refused: {}",
            self.sessions,
            counts.of(Call::Take, ACCEPTED),
            counts.senders_string,
            counts.by_opening,
            counts.longest,
            counts.most_accepted,
            counts.most_pending,
            list(&counts.accepted),
            counts.literals_above,
            counts.literals_empty,
            each(&counts.forms),
            counts.altered_memory,
            counts.altered_states,
            each(&counts.alone),
            counts.rules.values().sum::<usize>(),
            counts.rules[&2],
            each(&counts.not_rising),
            counts.accepted_after,
            each(&counts.other_forms),
            counts.accepted_after_forms,
            lent(counts),
            families.collect::<Vec<_>>().join(", "),
            forged(counts),
        )
    }
}

impl Report {
    /// A line for each call: how often it gave which answer.
    pub fn answers(&self) -> Vec<String> {
        let line = |call: Call| {
            let answers = call.answers().into_iter().map(|answer| {
                let count = self.counts.of(call, answer);
                match (call, answer) {
                    (Call::Take, 0) => format!("goes on {count}"),
                    (Call::Take, ACCEPTED) => format!("handed over {count}"),
                    (_, ACCEPTED) => format!("accepted {count}"),
                    _ => format!("by {answer} {count}"),
                }
            });
            let answers: Vec<String> = answers.collect();
            format!("sessions, {}: {}", call.name(), answers.join(", "))
        };
        CALLS.into_iter().map(line).collect()
    }
}

fn forged(counts: &Counts) -> String {
    let kinds = counts.forged.iter();
    let kinds =
        kinds.map(|(kind, [accepted, refused])| format!("{kind:?} {accepted} and {refused}"));
    kinds.collect::<Vec<_>>().join(", ")
}

fn each<K: fmt::Debug>(counts: &BTreeMap<K, usize>) -> String {
    let each = counts.iter().map(|(key, count)| format!("{key:?} {count}"));
    each.collect::<Vec<_>>().join(", ")
}

fn lent(counts: &Counts) -> String {
    let lent = counts.lendings.iter();
    let lent = lent.map(|((call, lending), count)| format!("{} {lending:?} {count}", call.name()));
    lent.collect::<Vec<_>>().join(", ")
}

fn list(counts: &BTreeMap<u32, usize>) -> String {
    let counts = counts.iter().map(|(key, count)| format!("{key} {count}"));
    counts.collect::<Vec<_>>().join(", ")
}
