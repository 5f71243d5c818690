//! A list of receiver calls, each on the state that the last returned, with what every call must
//! leave, whatever it is lent.

use crate::counts::{Claim, Counts};
use crate::sender_end::is_reply;
use reference::fnv::block_id;
use reference::lent::Lent;
use reference::message::{parse, Body};
use reference::rcds::ACCEPTED;
use reference::receiver::{take, write_query, Answer, Receiver, Stage};
use reference::shingle_table;

/// The bytes of the longest query.
const QUERY_BYTES: usize = 24;

/// A sender's own opening: the message, and the string it was written over.
pub struct OwnOpening {
    pub message: Vec<u8>,
    pub string: Vec<u8>,
}

/// The list of calls so far.
pub struct Run<'a> {
    pub receiver: Receiver,
    pub lent: Lent,
    pub output: Vec<u8>,
    /// Both as they were before the next call.
    kept_lent: Lent,
    kept_output: Vec<u8>,
    /// Replies accepted, counted over the calls.
    pub accepted: u64,
    pub handed: bool,
    /// Somebody else wrote the state, so that demand 3 is not owed.
    pub state_altered: bool,
    pub own_openings: Vec<OwnOpening>,
    /// What the accepted opening announced; and its string, if it was a sender's own.
    announced: Option<(u64, u64)>,
    pub opened: Option<Vec<u8>>,
    pub counts: &'a mut Counts,
    pub label: String,
}

impl<'a> Run<'a> {
    /// From what an accepted setup left.
    pub fn new(
        receiver: Receiver,
        lent: Lent,
        output: Vec<u8>,
        label: String,
        counts: &'a mut Counts,
    ) -> Run<'a> {
        Run {
            receiver,
            kept_lent: lent.clone(),
            kept_output: output.clone(),
            lent,
            output,
            accepted: 0,
            handed: false,
            state_altered: false,
            own_openings: Vec::new(),
            announced: None,
            opened: None,
            counts,
            label,
        }
    }

    /// The words of the outstanding query, if a call would write them now.
    pub fn query(&self) -> Option<Vec<u8>> {
        let mut buffer = vec![0; QUERY_BYTES];
        let answer = write_query(&self.receiver, &self.lent, &mut buffer);
        buffer.truncate(answer.checked_sub(ACCEPTED)? as usize);
        Some(buffer)
    }

    /// Other memory for the next calls.
    pub fn alter(&mut self, change: impl FnOnce(&mut Lent, &mut Vec<u8>)) {
        change(&mut self.lent, &mut self.output);
        self.kept_lent = self.lent.clone();
        self.kept_output = self.output.clone();
    }

    /// Looks at one case of a claim.
    pub fn claim(&mut self, claim: Claim, holds: bool, what: &str) {
        let (label, accepted) = (&self.label, self.accepted);
        let case = || format!("{label}, {accepted} replies accepted: {what}");
        self.counts.claim(claim, holds, case);
    }

    fn unchanged(&self) -> bool {
        self.lent == self.kept_lent && self.output == self.kept_output
    }

    /// Writes the query into a buffer of so many bytes.
    pub fn write(&mut self, buffer_bytes: usize) -> Option<Vec<u8>> {
        const BEFORE: u8 = 0x5a;
        let mut buffer = vec![BEFORE; buffer_bytes];
        let answer = write_query(&self.receiver, &self.lent, &mut buffer);
        let written = answer.saturating_sub(ACCEPTED) as usize;
        let rest = buffer[written..].iter().all(|&byte| byte == BEFORE);
        self.claim(Claim::NoChangesNothing, rest, "writing the query");
        if answer < ACCEPTED {
            *self.counts.writes_refused.entry(answer).or_default() += 1;
            let own = matches!(answer, 1..=7 | 9 | 20);
            self.claim(Claim::OwnQuestions, own, &format!("write {answer}"));
            return None;
        }
        buffer.truncate(written);
        Some(buffer)
    }

    /// Takes a message.
    pub fn take(&mut self, message: &[u8]) -> Answer {
        let before = self.receiver.clone();
        let query = self.query();
        let answer = take(
            &mut self.receiver,
            &mut self.lent,
            message,
            &mut self.output,
        );
        self.counts.taken += 1;
        match answer {
            Answer::Refused(question) => self.look_at_refused(question, &before),
            _ => {
                let none = parse(message).is_some_and(|m| m.body.message_type() == 6);
                let fits = query.is_some_and(|query| is_reply(&query, message)) && !none;
                self.claim(Claim::AcceptedFitsTheQuery, fits, "accepted");
                self.look_at_accepted(answer, message, &before);
            }
        }
        answer
    }

    fn look_at_refused(&mut self, question: u64, before: &Receiver) {
        *self.counts.takes_refused.entry(question).or_default() += 1;
        let what = format!("refused by {question}");
        let own = matches!(question, 1..=7 | 9..=19);
        self.claim(Claim::OwnQuestions, own, &what);
        if question < 12 {
            let same = self.receiver == *before && self.unchanged();
            self.claim(Claim::NoChangesNothing, same, &what);
            return;
        }
        let zero = self.output.len() == self.kept_output.len()
            && self.output.iter().all(|&byte| byte == 0);
        let tables = self.lent == self.kept_lent;
        let ended = write_query(&self.receiver, &self.lent, &mut [0; QUERY_BYTES]) == 9;
        self.claim(Claim::NoEndsAndZeroes, zero && tables && ended, &what);
        self.kept_output = self.output.clone();
    }

    fn look_at_accepted(&mut self, answer: Answer, message: &[u8], before: &Receiver) {
        let body = parse(message).map(|message| message.body);
        self.count(body.as_ref(), before.settings.levels);
        if !self.state_altered {
            self.claim(Claim::AtMost4097, self.accepted <= 4_097, "accepted");
            let going_on = !self.handed && before.stage != Stage::Ended;
            self.claim(Claim::EndedStays, going_on, "accepted");
        }
        let opening = before.stage == Stage::BeforeOpening;
        let rest = self.rest_is_left(opening, before.built as usize);
        self.claim(Claim::AcceptedLeavesTheRest, rest, "accepted");
        if let (true, Some(Body::Opening(announced))) = (opening, body) {
            self.announced = Some((u64::from(announced.length), announced.root));
            let mut own = self.own_openings.iter();
            let own = own.find(|own| own.message == message);
            self.opened = own.map(|own| own.string.clone());
        }
        if let Answer::Handed(length) = answer {
            self.look_at_handed(length as usize);
        }
        self.kept_output.clone_from(&self.output);
        self.kept_lent.shingles.clone_from(&self.lent.shingles);
    }

    fn count(&mut self, body: Option<&Body>, levels: u64) {
        self.accepted += 1;
        let counts = &mut *self.counts;
        let message_type = body.map_or(0, Body::message_type);
        *counts.types_accepted.entry(message_type).or_default() += 1;
        counts.accepted += 1;
        if let Some(Body::Literal { level, bytes, .. }) = body {
            counts.literals_above += u64::from(u64::from(*level) < levels);
            counts.literals_empty += u64::from(bytes.is_empty());
        }
    }

    /// Only bytes from built before to built now are new; only an opening changes a table, the
    /// shingle table, and leaves it zero past the list.
    fn rest_is_left(&self, opening: bool, built: usize) -> bool {
        let from = if opening { 0 } else { built };
        let to = self.receiver.built as usize;
        let (now, kept) = (&self.output, &self.kept_output);
        let output = from <= to
            && now.len() == kept.len()
            && now[..from] == kept[..from]
            && now[to..] == kept[to..];
        let (now, kept) = (&self.lent, &self.kept_lent);
        let shingles = match opening {
            false => now.shingles == kept.shingles,
            true => {
                let used = now.shingle_list().len() * shingle_table::ENTRY_BYTES;
                now.shingles.len() == kept.shingles.len()
                    && now.shingles[used..].iter().all(|&byte| byte == 0)
            }
        };
        let others =
            now.string == kept.string && now.nodes == kept.nodes && now.cells == kept.cells;
        output && shingles && others
    }

    /// "the first bytes of the output lent to that call, as many as the opening announced"
    fn look_at_handed(&mut self, length: usize) {
        self.handed = true;
        self.counts.handed += 1;
        if self.state_altered {
            return;
        }
        let string = self.output[..length].to_vec();
        let both = (string.len() as u64, block_id(&string));
        self.claim(
            Claim::AsAnnounced,
            self.announced == Some(both),
            "handed over",
        );
        if let Some(senders) = self.opened.clone() {
            self.counts.handed_after_own_opening += 1;
            let right = both == (senders.len() as u64, block_id(&senders));
            self.claim(Claim::LengthAndId, right, "handed over");
        }
        let ended = write_query(&self.receiver, &self.lent, &mut [0; QUERY_BYTES]) == 9;
        self.claim(Claim::EndedStays, ended, "handed over");
    }
}
