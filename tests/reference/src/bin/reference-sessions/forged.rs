//! Sessions with forged and damaged messages, over altered memory, some with altered states.

use crate::alter;
use crate::counts::{Claim, Counts};
use crate::forgery;
use crate::link::Ends;
use crate::run::{OwnOpening, Run};
use crate::sender_end::{looked_at_reply, memory, SenderEnd, REPLY_BYTES};
use crate::strings;
use reference::lent::Lent;
use reference::message::{encode, parse, Body, Message};
use reference::random::Random;
use reference::receiver::{set_up, Answer};

/// A session that anything may happen to.
struct Forged<'a> {
    run: Run<'a>,
    sender: SenderEnd,
    /// A sender of another string under the same number.
    rival: SenderEnd,
    session: u32,
    /// How often something is forged or altered, of a hundred.
    chance: u64,
    alters_state: bool,
    written: Vec<Vec<u8>>,
}

/// A session of two ends.
pub fn session(ends: &Ends, random: &mut Random, counts: &mut Counts) {
    counts.sessions += 1;
    let Ok(mut forged) = Forged::set_up(ends, random, counts) else {
        counts.setups_refused += 1;
        return;
    };
    for _ in 0..random.between(1, 60) {
        forged.turn(random);
        if forged.run.query().is_none() && random.percent(30) {
            break;
        }
    }
    let accepted = forged.run.accepted;
    counts.most = counts.most.max(accepted);
}

impl<'a> Forged<'a> {
    fn set_up(ends: &Ends, random: &mut Random, counts: &'a mut Counts) -> Result<Forged<'a>, u64> {
        let (settings, width) = (&ends.settings, ends.width);
        let mut own = memory(&ends.own, width, random);
        let receiver = set_up(settings, width, ends.number, &mut own)?;
        let sender = SenderEnd::set_up(settings, width, &ends.sender, random)?;
        let string = match random.percent(50) {
            true => ends.own.clone(),
            false => strings::string(ends.sender.len(), random),
        };
        let rival = SenderEnd::set_up(settings, width, &string, random)?;
        let output = random.bytes(ends.output_bytes);
        let run = Run::new(receiver, own, output, ends.label.clone(), counts);
        let mut forged = Forged {
            run,
            sender,
            rival,
            session: ends.session(),
            chance: random.one_of(&[3, 10, 30, 60]),
            alters_state: random.percent(20),
            written: Vec::new(),
        };
        let query = forged.opening_query();
        for end in [&mut forged.sender, &mut forged.rival] {
            forged.run.own_openings.push(OwnOpening {
                message: end.reply(&query, forged.run.counts),
                string: end.lent.string.clone(),
            });
        }
        Ok(forged)
    }

    fn opening_query(&self) -> Vec<u8> {
        let (session, body) = (self.session, Body::OpeningQuery);
        encode(&Message { session, body })
    }

    /// Perhaps something altered; a message taken; perhaps what was altered set right again.
    fn turn(&mut self, random: &mut Random) {
        if self.alters_state && random.percent(self.chance) {
            self.run.state_altered = true;
            alter::state(&mut self.run.receiver, random);
        }
        let message = self.message(random);
        let saved = (self.run.lent.clone(), self.run.output.clone());
        let altered = random.percent(self.chance);
        if altered {
            let other = &self.rival.lent;
            self.run
                .alter(|lent, output| alter::memory(lent, output, other, random));
        }
        if random.percent(20) {
            self.run.write(random.one_of(&[0, 8, 23, 24]));
        }
        let opening = self.run.accepted == 0;
        let answer = self.run.take(&message);
        if altered && random.percent(70) {
            let accepted = !matches!(answer, Answer::Refused(_));
            self.set_right(saved, opening && accepted, accepted);
        }
    }

    /// The memory as it was before it was altered, with what the call has left in it.
    fn set_right(&mut self, saved: (Lent, Vec<u8>), opened: bool, accepted: bool) {
        let (saved_lent, mut saved_output) = saved;
        let built = self.run.receiver.built as usize;
        self.run.alter(|lent, output| {
            let new_list = lent.shingles.clone();
            *lent = saved_lent;
            if opened {
                lent.shingles = new_list;
            }
            if accepted && built <= saved_output.len() && built <= output.len() {
                saved_output[..built].copy_from_slice(&output[..built]);
            }
            *output = saved_output;
        });
    }

    /// The next message: genuine, or something else.
    fn message(&mut self, random: &mut Random) -> Vec<u8> {
        let query = self.run.query().unwrap_or(self.opening_query());
        let genuine = self.sender.reply(&query, self.run.counts);
        self.written.push(genuine.clone());
        if !random.percent(self.chance) {
            return genuine;
        }
        match random.between(0, 9) {
            0 | 1 => forgery::damaged(&genuine, random),
            2 => self.rival.reply(&query, self.run.counts),
            3 => self
                .reply_over_altered_memory(&query, random)
                .unwrap_or(genuine),
            4 => random.one_of(&self.written),
            5 => {
                let length = random.by_size(0, 60) as usize;
                random.bytes(length)
            }
            _ => self.forged(&query, &genuine, random),
        }
    }

    /// What a sender writes whose memory, and perhaps whose state, is altered, for this query, a damaged
    /// one, or another message.
    fn reply_over_altered_memory(&mut self, query: &[u8], random: &mut Random) -> Option<Vec<u8>> {
        let mut lent = self.sender.lent.clone();
        let mut buffer = vec![0; REPLY_BYTES];
        for _ in 0..random.between(1, 3) {
            alter::memory(&mut lent, &mut buffer, &self.rival.lent, random);
        }
        let message = match random.between(0, 5) {
            0 => forgery::damaged(query, random),
            1 => random.one_of(&self.written),
            _ => query.to_vec(),
        };
        let (mut settings, mut width) = (self.sender.settings, self.sender.width);
        if random.percent(20) {
            alter::settings(&mut settings, &mut width, random);
        }
        let buffer_bytes = buffer.len();
        let counts = &mut *self.run.counts;
        looked_at_reply((&settings, width), &lent, &message, buffer_bytes, counts).ok()
    }

    fn forged(&mut self, query: &[u8], genuine: &[u8], random: &mut Random) -> Vec<u8> {
        let list = self.sender.lent.shingle_list();
        let session = self.session;
        match (parse(query).map(|m| m.body), parse(genuine).map(|m| m.body)) {
            (Some(Body::NodeQuery { level, id }), _) => {
                let string = &self.sender.lent.string;
                let built = (self.run.receiver.built as usize).min(string.len());
                let now = self.run.lent.shingle_list();
                let rest = &string[built..];
                forgery::node_reply(session, (level, id), genuine, &now, rest, random)
            }
            (_, Some(Body::Opening(own))) => forgery::opening(session, &own, &list, random),
            _ => genuine.to_vec(),
        }
    }
}

/// A forged sender that never comes to an end: every node has 32 children, and every block of level L
/// is empty. Question 15 ends it after 4,097 replies.
pub fn endless(random: &mut Random, counts: &mut Counts) {
    counts.sessions += 1;
    let ends = Ends {
        label: "endless".to_string(),
        ..Ends::most_replies()
    };
    let mut forged = Forged::set_up(&ends, random, counts).expect("both setups are accepted");
    let opening = forgery::endless_opening(&forged.run.own_openings[0].message, &forged.run.lent);
    let mut answer = forged.run.take(&opening);
    while answer == Answer::Waiting {
        let query = forged.run.query().expect("the session is running");
        let list = forged.run.lent.shingle_list();
        answer = forged
            .run
            .take(&forgery::endless_reply(&query, &list, ends.settings.levels));
    }
    let accepted = forged.run.accepted;
    let refused = answer == Answer::Refused(15) && accepted == 4_097;
    forged
        .run
        .claim(Claim::BoundIsReached, refused, &format!("{answer:?}"));
    counts.most = counts.most.max(accepted);
}
