//! Both ends of a session, the library's beside the reference's: each call is made of both, on the
//! same bytes, and compared at once.

use super::calls::Calls;
use super::counts::{Alone, Call, Counts};
use super::end::{piece, End};
use super::why;
use crate::clock::timed;
use crate::failure::Difference;
use crate::lent::{for_reading, Lent};
use crate::random::Random;
use crate::replies::form::form;
use crate::replies::setup::held;
use reference::message::{parse, Body, Message};
use reference::rcds::{self, ACCEPTED};
use reference::receiver::Receiver;
use reference::receiver_state::{self, HEADER_ROWS};
use reference::reply::reply;
use reference::settings::Settings;

/// A call that differs from the reference's, and what it was lent.
pub struct Broken {
    pub call: Call,
    pub message: Vec<u8>,
    /// The first rows of the receiver's state before the call.
    pub rows: Vec<u64>,
    pub difference: Difference,
}

/// What a call answers if it is the reference's.
pub type Outcome<T> = Result<T, Box<Broken>>;

/// The two ends.
pub struct Lockstep<'a> {
    calls: &'a Calls,
    pub sender: End,
    pub receiver: End,
    output: Lent,
    /// The output buffer as the reference has it.
    pub output_bytes: Vec<u8>,
    pub counts: Counts,
    /// The first rows of the receiver's state before its last call.
    rows: Vec<u64>,
    /// Where pieces are lent, and what stands beside them.
    random: Random,
}

impl<'a> Lockstep<'a> {
    pub fn new(
        calls: &'a Calls,
        sender: End,
        receiver: End,
        output_bytes: Vec<u8>,
        mut random: Random,
    ) -> Lockstep<'a> {
        Lockstep {
            calls,
            sender,
            receiver,
            output: piece("output", &output_bytes, &mut random),
            output_bytes,
            counts: Counts::default(),
            rows: Vec::new(),
            random,
        }
    }

    /// Lends the library what the reference has now, after something was altered.
    pub fn lend_again(&mut self) {
        self.sender.lend_again(&mut self.random);
        self.receiver.lend_again(&mut self.random);
        if self.output.bytes() != self.output_bytes {
            self.output = piece("output", &self.output_bytes, &mut self.random);
        }
    }

    /// Keeps the first rows of the receiver's state, to say them of a call that differs.
    fn keep_rows(&mut self) {
        let rows = self.receiver.state_bytes.chunks_exact(8).take(HEADER_ROWS);
        let row = |bytes: &[u8]| u64::from_be_bytes(bytes.try_into().expect("8 bytes"));
        self.rows = rows.map(row).collect();
    }

    /// Counts an answer that is the reference's, after everything else was.
    fn compared(
        &mut self,
        call: Call,
        (expected, given): (u64, u64),
        message: &[u8],
        rest: Result<(), Difference>,
    ) -> Outcome<u64> {
        let answer = match expected == given {
            true => Ok(()),
            false => Err(Difference::Answer { expected, given }),
        };
        match answer.and(rest) {
            Ok(()) => {
                self.counts.answer(call, expected);
                Ok(expected)
            }
            Err(difference) => Err(Box::new(Broken {
                call,
                message: message.to_vec(),
                rows: self.rows.clone(),
                difference,
            })),
        }
    }

    pub fn set_up_sender(&mut self, settings: &Settings, width: u64) -> Outcome<u64> {
        let end = &mut self.sender;
        let written = [&end.nodes, &end.shingles, &end.cells, &end.state];
        let read = end.string.pointer().cast_const();
        self.counts.lent(Call::SenderSetup, &[read], &written);
        // All pieces are there in full, and they do not overlap: each stands in memory of its own.
        let given = timed(|| unsafe {
            (self.calls.sender_setup)(
                settings.window,
                settings.fan_out,
                settings.levels,
                settings.nominal,
                width,
                end.string.pointer(),
                end.string.length(),
                end.nodes.pointer(),
                end.nodes.length(),
                end.shingles.pointer(),
                end.shingles.length(),
                end.cells.pointer(),
                end.cells.length(),
                end.state.pointer(),
                end.state.length(),
            )
        });
        let memory = &mut end.memory;
        let expected = rcds::rcds_sender_setup(
            settings,
            width,
            &memory.string,
            &mut memory.nodes,
            &mut memory.shingles,
            &mut memory.cells,
            &mut end.state_bytes,
        );
        let rest = end.expect();
        self.compared(Call::SenderSetup, (expected, given), &[], rest)
    }

    pub fn set_up_receiver(
        &mut self,
        settings: &Settings,
        width: u64,
        session: u64,
    ) -> Outcome<u64> {
        let end = &mut self.receiver;
        let written = [&end.nodes, &end.shingles, &end.cells, &end.state];
        let read = end.string.pointer().cast_const();
        self.counts.lent(Call::ReceiverSetup, &[read], &written);
        // As above.
        let given = timed(|| unsafe {
            (self.calls.receiver_setup)(
                settings.window,
                settings.fan_out,
                settings.levels,
                settings.nominal,
                width,
                session,
                end.string.pointer(),
                end.string.length(),
                end.nodes.pointer(),
                end.nodes.length(),
                end.shingles.pointer(),
                end.shingles.length(),
                end.cells.pointer(),
                end.cells.length(),
                end.state.pointer(),
                end.state.length(),
            )
        });
        let (memory, state) = (&mut end.memory, &mut end.state_bytes);
        let expected = rcds::rcds_receiver_setup(settings, width, session, memory, state);
        let rest = end.expect();
        self.compared(Call::ReceiverSetup, (expected, given), &[], rest)
    }

    /// The sender's reply in a buffer of so many bytes, if there is one.
    pub fn reply(&mut self, message: &[u8], room: usize) -> Outcome<Option<Vec<u8>>> {
        let mut expected_out = self.random.bytes(room);
        let mut out = piece("buffer", &expected_out, &mut self.random);
        let mut lent = piece("message", message, &mut self.random);
        let end = &mut self.sender;
        let read = for_reading([
            &mut end.state,
            &mut end.string,
            &mut end.nodes,
            &mut end.shingles,
            &mut end.cells,
            &mut lent,
        ]);
        self.counts.lent(Call::Reply, &read, &[&out]);
        // All pieces are there in full, and the one for writing stands in memory of its own.
        let given = timed(|| unsafe {
            (self.calls.reply)(
                read[0],
                end.state.length(),
                read[1],
                end.string.length(),
                read[2],
                end.nodes.length(),
                read[3],
                end.shingles.length(),
                read[4],
                end.cells.length(),
                read[5],
                lent.length(),
                out.pointer(),
                out.length(),
            )
        });
        let (settings, width) = held(&end.state_bytes);
        let expected = reply(&settings, width, &end.memory, message, &mut expected_out);
        let rest = out.expect(&expected_out);
        let rest = rest
            .and_then(|()| lent.expect_unchanged())
            .and_then(|()| end.expect());
        let answer = self.compared(Call::Reply, (expected, given), message, rest)?;
        Ok(answer.checked_sub(ACCEPTED).map(|written| {
            expected_out.truncate(written as usize);
            let written = parse(&expected_out).map_or(0, |reply| reply.body.message_type());
            *self.counts.replied.entry(written).or_default() += 1;
            expected_out
        }))
    }

    /// The receiver's query in a buffer of so many bytes, if there is one.
    pub fn query(&mut self, room: usize) -> Outcome<Option<Vec<u8>>> {
        let mut expected_out = self.random.bytes(room);
        let mut out = piece("buffer", &expected_out, &mut self.random);
        self.keep_rows();
        let end = &mut self.receiver;
        let read = for_reading([
            &mut end.state,
            &mut end.string,
            &mut end.nodes,
            &mut end.shingles,
            &mut end.cells,
        ]);
        self.counts.lent(Call::Query, &read, &[&out]);
        // As above.
        let given = timed(|| unsafe {
            (self.calls.query)(
                read[0],
                end.state.length(),
                read[1],
                end.string.length(),
                read[2],
                end.nodes.length(),
                read[3],
                end.shingles.length(),
                read[4],
                end.cells.length(),
                out.pointer(),
                out.length(),
            )
        });
        let expected = rcds::rcds_query(&end.state_bytes, &end.memory, &mut expected_out);
        let rest = out.expect(&expected_out).and_then(|()| end.expect());
        let answer = self.compared(Call::Query, (expected, given), &[], rest)?;
        Ok(answer.checked_sub(ACCEPTED).map(|written| {
            expected_out.truncate(written as usize);
            expected_out
        }))
    }

    /// The receiver takes a message.
    pub fn take(&mut self, message: &[u8]) -> Outcome<u64> {
        let mut lent = piece("message", message, &mut self.random);
        self.keep_rows();
        let before = receiver_state::read(&self.receiver.state_bytes);
        let (end, output) = (&mut self.receiver, &mut self.output);
        let read = for_reading([&mut end.string, &mut end.nodes, &mut end.cells, &mut lent]);
        let written = [&end.state, &end.shingles, &*output];
        self.counts.lent(Call::Take, &read, &written);
        // All pieces are there in full, and those for writing stand in memory of their own.
        let given = timed(|| unsafe {
            (self.calls.take)(
                end.state.pointer(),
                end.state.length(),
                read[0],
                end.string.length(),
                read[1],
                end.nodes.length(),
                end.shingles.pointer(),
                end.shingles.length(),
                read[2],
                end.cells.length(),
                read[3],
                lent.length(),
                output.pointer(),
                output.length(),
            )
        });
        let (state, memory) = (&mut end.state_bytes, &mut end.memory);
        let expected = rcds::rcds_take(state, memory, message, &mut self.output_bytes);
        let rest = output.expect(&self.output_bytes);
        let rest = rest
            .and_then(|()| lent.expect_unchanged())
            .and_then(|()| end.expect());
        let answer = self.compared(Call::Take, (expected, given), message, rest)?;
        match answer == 0 || answer >= ACCEPTED {
            true => self.accepted(answer, message),
            false => self.refused(answer, &before, message),
        }
        Ok(answer)
    }

    /// The type of a message.
    pub fn message_type(&mut self, message: &[u8]) -> Outcome<u64> {
        let mut lent = piece("message", message, &mut self.random);
        let read = lent.pointer().cast_const();
        self.keep_rows();
        self.counts.lent(Call::MessageType, &[read], &[]);
        // The message is there in full, in memory of its own.
        let given = timed(|| unsafe { (self.calls.message_type)(read, lent.length()) });
        let expected = rcds::rcds_message_type(message);
        let rest = lent.expect_unchanged();
        self.compared(Call::MessageType, (expected, given), message, rest)
    }

    /// Counts a message that one condition of its question refused, and nothing else.
    fn refused(&mut self, answer: u64, before: &Receiver, message: &[u8]) {
        let Some(Message { body, .. }) = parse(message) else {
            return;
        };
        if let (12, Body::Opening(opening)) = (answer, &body) {
            if let Some(rule) = why::rule_alone(before, opening) {
                *self.counts.rules.entry(rule).or_default() += 1;
            }
        }
        let memory = &self.receiver.memory;
        let alone = match (answer, &body) {
            (13, _) => why::limit_alone(before, self.output_bytes.len()).then_some(Alone::Limit),
            (14, Body::Opening(opening)) => {
                why::positive_own_alone(before, memory, opening).then_some(Alone::PositiveOwn)
            }
            (17, Body::Composition { .. }) => {
                why::sum_alone(before, &memory.shingle_list(), &body).then_some(Alone::Sum)
            }
            _ => None,
        };
        if let Some(alone) = alone {
            *self.counts.alone.entry(alone).or_default() += 1;
        }
    }

    /// Counts an accepted message.
    fn accepted(&mut self, answer: u64, message: &[u8]) {
        let after = receiver_state::read(&self.receiver.state_bytes);
        let body = parse(message).map(|message| message.body);
        let message_type = body.as_ref().map_or(0, Body::message_type);
        let counts = &mut self.counts;
        *counts.accepted.entry(message_type).or_default() += 1;
        counts.most_accepted = counts.accepted.values().sum();
        counts.most_pending = counts.most_pending.max(after.pile.len());
        match body {
            Some(Body::Literal { level, bytes, .. }) => {
                counts.literals_above += usize::from(u64::from(level) < after.settings.levels);
                counts.literals_empty += usize::from(bytes.is_empty());
            }
            Some(Body::Composition {
                number, references, ..
            }) => {
                let list = self.receiver.memory.shingle_list();
                let form = form(number, &references, &list);
                *counts.forms.entry(form).or_default() += 1;
            }
            _ => {}
        }
        if let Some(length) = answer.checked_sub(ACCEPTED) {
            let handed = &self.output_bytes[..length as usize];
            counts.senders_string += usize::from(handed == self.sender.memory.string);
            counts.by_opening += usize::from(message_type == 3);
            counts.longest = counts.longest.max(handed.len());
        }
    }

    /// That nothing of either end was changed while the other's calls ran.
    pub fn finish(&mut self) -> Outcome<()> {
        let rest = self.sender.expect().and_then(|()| self.receiver.expect());
        rest.map_err(|difference| {
            Box::new(Broken {
                call: Call::Take,
                message: Vec::new(),
                rows: Vec::new(),
                difference,
            })
        })
    }
}
