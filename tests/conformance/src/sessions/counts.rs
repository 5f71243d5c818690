//! What the calls of sessions came to.

use super::forged::Forgery;
use super::other_forms::OtherForm;
use crate::lent::{is_shared, Lent};
use crate::messages::order::Disorder;
use crate::replies::form::Form;
use reference::rcds::ACCEPTED;
use std::collections::BTreeMap;

/// A call of the C interface.
#[derive(Clone, Copy, Debug, PartialEq, Eq, PartialOrd, Ord)]
pub enum Call {
    SenderSetup,
    Reply,
    ReceiverSetup,
    Query,
    Take,
    MessageType,
}

/// All of them.
pub const CALLS: [Call; 6] = [
    Call::SenderSetup,
    Call::Reply,
    Call::ReceiverSetup,
    Call::Query,
    Call::Take,
    Call::MessageType,
];

impl Call {
    pub fn name(self) -> &'static str {
        match self {
            Call::SenderSetup => "rcds_sender_setup",
            Call::Reply => "rcds_reply",
            Call::ReceiverSetup => "rcds_receiver_setup",
            Call::Query => "rcds_query",
            Call::Take => "rcds_take",
            Call::MessageType => "rcds_message_type",
        }
    }

    /// Every answer that the call can give, with 2^32 for all from there on: a count, or, of a
    /// message taken, the string that is handed over.
    pub fn answers(self) -> Vec<u64> {
        match self {
            Call::SenderSetup | Call::ReceiverSetup => [vec![ACCEPTED], (1..=8).collect()].concat(),
            Call::Reply => vec![ACCEPTED, 1, 2, 3, 4, 5, 6, 7, 10, 11, 20],
            Call::Query => vec![ACCEPTED, 1, 2, 3, 4, 5, 6, 7, 9, 20],
            Call::Take => {
                let refused = (1..=7).chain(9..=19);
                [0, ACCEPTED].into_iter().chain(refused).collect()
            }
            Call::MessageType => vec![ACCEPTED, 10],
        }
    }
}

/// A condition that refused a message, all others of its question being met.
#[derive(Clone, Copy, Debug, PartialEq, Eq, PartialOrd, Ord)]
pub enum Alone {
    /// 13 of a node reply: over 65,536 bytes announced, within the buffer.
    Limit,
    /// 14: a positive shingle in the own list.
    PositiveOwn,
    /// 17: counts that add up to more than 32.
    Sum,
}

/// All of them.
pub const ALONE: [Alone; 3] = [Alone::Limit, Alone::PositiveOwn, Alone::Sum];

/// How pieces were lent to a call.
#[derive(Clone, Copy, Debug, PartialEq, Eq, PartialOrd, Ord)]
pub enum Lending {
    /// One for reading, and one for writing, of 0 bytes and null.
    NullRead,
    NullWritten,
    /// Two for reading in one memory.
    Shared,
}

/// The lendings that the call can have: a setup reads one piece alone, and the type is asked here of
/// compositions alone.
pub fn lendings(call: Call) -> &'static [Lending] {
    match call {
        Call::SenderSetup | Call::ReceiverSetup => &[Lending::NullRead, Lending::NullWritten],
        Call::MessageType => &[],
        _ => &[Lending::NullRead, Lending::NullWritten, Lending::Shared],
    }
}

/// Numbers of one session, or of many.
#[derive(Clone, Debug, Default)]
pub struct Counts {
    /// How often each call gave each answer, with 2^32 for all from there on.
    pub answers: BTreeMap<(Call, u64), usize>,
    /// Messages written by the sender, and messages that the receiver accepted, by type.
    pub replied: BTreeMap<u32, usize>,
    pub accepted: BTreeMap<u32, usize>,
    /// Forged messages, accepted and refused.
    pub forged: BTreeMap<Forgery, [usize; 2]>,
    /// Messages accepted: all of a session's, and the most of one.
    pub most_accepted: usize,
    /// The most nodes that were pending.
    pub most_pending: usize,
    /// Strings handed over: the sender's string, by the opening alone, and the longest.
    pub senders_string: usize,
    pub by_opening: usize,
    pub longest: usize,
    /// Literals accepted of nodes above the last level, and empty ones.
    pub literals_above: usize,
    pub literals_empty: usize,
    /// Compositions accepted, by their forms.
    pub forms: BTreeMap<Form, usize>,
    /// Calls over altered tables, strings or outputs, and over altered states.
    pub altered_memory: usize,
    pub altered_states: usize,
    /// Messages refused by one condition alone.
    pub alone: BTreeMap<Alone, usize>,
    /// Openings refused by 12 for their rule alone, by its number.
    pub rules: BTreeMap<u32, usize>,
    /// Compositions whose references do not rise, met by 10 at every call and nothing changed; and the
    /// genuine ones that were accepted right after such.
    pub not_rising: BTreeMap<Disorder, usize>,
    pub accepted_after: usize,
    /// Compositions in other forms than the genuine one, which was outstanding; and the genuine ones that were
    /// accepted right after such.
    pub other_forms: BTreeMap<OtherForm, usize>,
    pub accepted_after_forms: usize,
    /// Calls with pieces lent so.
    pub lendings: BTreeMap<(Call, Lending), usize>,
}

impl Counts {
    pub fn answer(&mut self, call: Call, answer: u64) {
        *self
            .answers
            .entry((call, answer.min(ACCEPTED)))
            .or_default() += 1;
    }

    /// Counts how a call's pieces are lent: where those for reading stand, and those for writing.
    pub fn lent(&mut self, call: Call, read: &[*const u8], written: &[&Lent]) {
        let lendings = [
            (Lending::NullRead, read.iter().any(|at| at.is_null())),
            (
                Lending::NullWritten,
                written.iter().any(|lent| lent.length() == 0),
            ),
            (Lending::Shared, is_shared(read)),
        ];
        for (lending, _) in lendings.into_iter().filter(|(_, is)| *is) {
            *self.lendings.entry((call, lending)).or_default() += 1;
        }
    }

    /// How often a call gave this answer.
    pub fn of(&self, call: Call, answer: u64) -> usize {
        self.answers.get(&(call, answer)).copied().unwrap_or(0)
    }

    /// Adds the counts of other sessions.
    pub fn add(&mut self, other: &Counts) {
        add_each(&mut self.answers, &other.answers);
        add_each(&mut self.replied, &other.replied);
        add_each(&mut self.accepted, &other.accepted);
        add_each(&mut self.alone, &other.alone);
        add_each(&mut self.rules, &other.rules);
        add_each(&mut self.not_rising, &other.not_rising);
        add_each(&mut self.forms, &other.forms);
        add_each(&mut self.other_forms, &other.other_forms);
        add_each(&mut self.lendings, &other.lendings);
        for (kind, [accepted, refused]) in &other.forged {
            let counts = self.forged.entry(*kind).or_default();
            counts[0] += accepted;
            counts[1] += refused;
        }
        self.most_accepted = self.most_accepted.max(other.most_accepted);
        self.most_pending = self.most_pending.max(other.most_pending);
        self.longest = self.longest.max(other.longest);
        let sums = [
            (&mut self.senders_string, other.senders_string),
            (&mut self.by_opening, other.by_opening),
            (&mut self.literals_above, other.literals_above),
            (&mut self.literals_empty, other.literals_empty),
            (&mut self.altered_memory, other.altered_memory),
            (&mut self.altered_states, other.altered_states),
            (&mut self.accepted_after, other.accepted_after),
            (&mut self.accepted_after_forms, other.accepted_after_forms),
        ];
        sums.into_iter().for_each(|(sum, more)| *sum += more);
    }
}

fn add_each<K: Ord + Copy>(sums: &mut BTreeMap<K, usize>, more: &BTreeMap<K, usize>) {
    for (key, count) in more {
        *sums.entry(*key).or_default() += count;
    }
}
