//! A session from its setups to its end, over a link and with whatever its case says.

use super::altered;
use super::calls::Calls;
use super::cases::{Case, Course, Family};
use super::counts::Counts;
use super::end::End;
use super::endless;
use super::forged::{forged, Known};
use super::lockstep::{Broken, Lockstep, Outcome};
use super::not_rising;
use super::other_forms;
use crate::failure::{first_bytes, Failure};
use crate::random::Random;
use crate::replies::setup::held;
use reference::lent::Lent as Memory;
use reference::message::{encode, parse, Body, Message};
use reference::rcds::ACCEPTED;
use reference::receiver::outstanding;
use reference::receiver_state;
use reference::reply::reply;

/// More bytes than any reply of a session has; and enough for most.
const MOST: usize = 90_000;
const ENOUGH: usize = 14_000;

/// The bytes of the longest query.
const QUERY: usize = 24;

/// Runs a session through the calls and through the reference. What its calls came to, if all is equal.
pub fn run(case: &Case, calls: &Calls) -> Result<Counts, Failure> {
    let mut session = Session::new(case, calls);
    match session.go() {
        Ok(()) => Ok(session.ends.counts),
        Err(broken) => Err(failure(case, &session.ends.counts, *broken)),
    }
}

fn failure(case: &Case, counts: &Counts, broken: Broken) -> Failure {
    let before: usize = counts.answers.values().sum();
    let message = first_bytes(&broken.message, 40);
    Failure {
        call: broken.call.name(),
        seed: case.seed,
        number: case.number,
        case: format!(
            "{case}\nafter {before} calls; the receiver's first rows: {:?}; the message:{message}",
            broken.rows
        ),
        difference: broken.difference,
    }
}

/// The ends, and what is under way between them.
struct Session<'a> {
    case: &'a Case,
    course: Course,
    ends: Lockstep<'a>,
    random: Random,
    queries: Vec<Vec<u8>>,
    replies: Vec<Vec<u8>>,
    /// Everything that the sender wrote, to come late.
    written: Vec<Vec<u8>>,
}

impl<'a> Session<'a> {
    fn new(case: &'a Case, calls: &'a Calls) -> Session<'a> {
        let mut random = Random::of_case(case.seed ^ 2, case.number);
        let of_pieces = Random::of_case(case.seed ^ 3, case.number);
        let mut end = |(memory, state): &(Memory, Vec<u8>)| {
            End::new(memory.clone(), state.clone(), &mut random)
        };
        let (sender, receiver) = (end(&case.sender), end(&case.receiver));
        let output = case.output.clone();
        Session {
            case,
            course: case.course,
            ends: Lockstep::new(calls, sender, receiver, output, of_pieces),
            random,
            queries: Vec::new(),
            replies: Vec::new(),
            written: Vec::new(),
        }
    }

    fn go(&mut self) -> Outcome<()> {
        let (settings, width) = (&self.case.settings, self.case.width);
        let sender = self.ends.set_up_sender(settings, width)?;
        let session = self.case.session;
        let receiver = self.ends.set_up_receiver(settings, width, session)?;
        if sender < ACCEPTED || receiver < ACCEPTED {
            self.course.turns = self.course.turns.min(6);
            self.course.rounds = 1;
        }
        match self.case.family {
            Family::Endless => endless::run(&mut self.ends, None)?,
            Family::Sum => {
                let level = self.case.number as u64 % settings.levels.max(1);
                endless::run(&mut self.ends, Some(level as u32))?;
            }
            Family::Announced => self.announced()?,
            _ => {
                for _ in 0..self.course.turns {
                    self.turn()?;
                    if self.ended() && self.random.percent(30) {
                        break;
                    }
                }
                self.finish()?;
            }
        }
        self.afterwards()?;
        self.ends.finish()
    }

    /// Whether the receiver has no query.
    fn ended(&self) -> bool {
        outstanding(&receiver_state::read(&self.ends.receiver.state_bytes)).is_none()
    }

    /// One thing that happens at an end or on the link.
    fn turn(&mut self) -> Outcome<()> {
        match self.random.between(0, 19) {
            0..=5 => {
                let room = self
                    .random
                    .one_of(&[0, 7, 8, 23, QUERY, QUERY, QUERY, QUERY, 100]);
                let query = self.query(room)?;
                let sent = self.sent(query);
                self.queries.extend(sent);
            }
            6..=11 => {
                if let Some(query) = arrived(&mut self.queries, &mut self.random) {
                    let reply = self.reply(&query)?;
                    let sent = self.sent(reply);
                    self.replies.extend(sent);
                }
            }
            12..=17 => {
                if let Some(reply) = arrived(&mut self.replies, &mut self.random) {
                    self.take(&reply)?;
                }
            }
            18 => {
                if let Some(late) = self.late() {
                    self.take(&late)?;
                }
            }
            _ => {
                let query = self.stray_query();
                if let Some(reply) = self.reply(&query)? {
                    self.take(&reply)?;
                }
            }
        }
        Ok(())
    }

    /// What comes of a message on the link: nothing, the message, or the message twice.
    fn sent(&mut self, message: Option<Vec<u8>>) -> Vec<Vec<u8>> {
        let Some(message) = message else {
            return Vec::new();
        };
        if self.random.percent(self.course.loss) {
            return Vec::new();
        }
        match self.random.percent(self.course.repeat) {
            true => vec![message.clone(), message],
            false => vec![message],
        }
    }

    /// One of the last messages that the sender wrote.
    fn late(&mut self) -> Option<Vec<u8>> {
        let last = self.written.len().checked_sub(1)? as u64;
        let place = self.random.between(last.saturating_sub(9), last);
        Some(self.written[place as usize].clone())
    }

    /// A query that nobody here wrote: for a node of either end, of this session or another.
    fn stray_query(&mut self) -> Vec<u8> {
        let random = &mut self.random;
        let this = (self.case.session % (1 << 24)) as u32;
        let bit = random.between(0, 23);
        let session = random.one_of(&[this, this, this ^ 1, this ^ 1 << bit]);
        let end = match random.between(0, 2) {
            0 => &self.ends.receiver,
            _ => &self.ends.sender,
        };
        let nodes = end.memory.node_list();
        if nodes.is_empty() || random.percent(25) {
            let body = Body::OpeningQuery;
            return encode(&Message { session, body });
        }
        let node = random.one_of(&nodes);
        let level = match random.percent(20) {
            true => random.between(0, 5),
            false => node.level,
        };
        let body = Body::NodeQuery {
            level: level as u32,
            id: node.id,
        };
        encode(&Message { session, body })
    }

    /// Writes the query; over a piece that is too short, where the case says so.
    fn query(&mut self, room: usize) -> Outcome<Option<Vec<u8>>> {
        let saved = match self.random.percent(self.course.short) {
            true => Some(self.shorten()),
            false => None,
        };
        let query = self.ends.query(room)?;
        if let Some(saved) = saved {
            self.set_right(saved, 1);
        }
        Ok(query)
    }

    /// The sender's reply, mostly in a buffer that is long enough, over memory as the setup left it.
    fn reply(&mut self, message: &[u8]) -> Outcome<Option<Vec<u8>>> {
        let most = match self.case.family {
            Family::Long => MOST,
            _ => ENOUGH,
        };
        let random = &mut self.random;
        let room = match random.percent(self.course.short + 1) {
            true => random.by_size(0, most as u64) as usize,
            false => most,
        };
        let saved = match random.percent(self.course.sender) {
            true => {
                let sender = &mut self.ends.sender;
                let saved = (sender.memory.clone(), sender.state_bytes.clone());
                altered::sender(&mut sender.memory, &mut sender.state_bytes, random);
                self.ends.lend_again();
                Some(saved)
            }
            false => None,
        };
        let message = match random.percent(self.course.sender / 2) {
            true => damaged_query(message, random),
            false => message.to_vec(),
        };
        let reply = self.ends.reply(&message, room)?;
        self.written.extend(reply.clone());
        if let Some((memory, state)) = saved {
            (self.ends.sender.memory, self.ends.sender.state_bytes) = (memory, state);
            self.ends.lend_again();
        }
        Ok(reply)
    }

    /// Takes a message, or one that is forged in its place; over altered memory or an altered state,
    /// where the case says so.
    fn take(&mut self, message: &[u8]) -> Outcome<u64> {
        match self.case.family {
            Family::NotRising => return self.take_after_not_rising(message),
            Family::OtherForms | Family::SeveralTrails => {
                return self.take_after_other_forms(message);
            }
            _ => {}
        }
        let saved = self.alter();
        let forged = match self.random.percent(self.course.forged) {
            true => self.forge(),
            false => None,
        };
        let answer = match forged {
            None => self.ends.take(message)?,
            Some((kind, forged)) => {
                let answer = self.ends.take(&forged)?;
                let refused = answer != 0 && answer < ACCEPTED;
                let counts = self.ends.counts.forged.entry(kind).or_default();
                counts[usize::from(refused)] += 1;
                answer
            }
        };
        if let Some(saved) = saved {
            self.set_right(saved, answer);
        }
        Ok(answer)
    }

    /// Takes a message after the same with references that do not rise, if it is a composition. Those come
    /// late as well.
    fn take_after_not_rising(&mut self, message: &[u8]) -> Outcome<u64> {
        let met = not_rising::lend(&mut self.ends, message, &mut self.random)?;
        let answer = self.ends.take(message)?;
        let accepted = answer == 0 || answer >= ACCEPTED;
        self.ends.counts.accepted_after += usize::from(accepted && !met.is_empty());
        self.written.extend(met);
        Ok(answer)
    }

    /// Takes a message after the same in other forms, if it is a composition.
    fn take_after_other_forms(&mut self, message: &[u8]) -> Outcome<u64> {
        let lent = other_forms::lend(&mut self.ends, message, &mut self.random)?;
        let answer = self.ends.take(message)?;
        let accepted = answer == 0 || answer >= ACCEPTED;
        self.ends.counts.accepted_after_forms += usize::from(accepted && lent > 0);
        Ok(answer)
    }

    /// Alters something of the receiver, where the case says so. What it was before, if it is to be set
    /// right after the call.
    fn alter(&mut self) -> Option<Saved> {
        let random = &mut self.random;
        let ends = &mut self.ends;
        if random.percent(self.course.state) {
            let ids: Vec<u64> = ends
                .receiver
                .memory
                .node_list()
                .iter()
                .map(|n| n.id)
                .collect();
            let state = &mut ends.receiver.state_bytes;
            let kept = state.clone();
            for _ in 0..random.one_of(&[1, 1, 1, 2, 4]) {
                match self.case.family {
                    Family::Piles => altered::deepen(state, &ids, random),
                    _ => altered::state(state, &ids, random),
                }
            }
            ends.counts.altered_states += 1;
            let again = state.len() < receiver_state::STATE_BYTES || random.percent(40);
            let saved = again.then(|| Saved {
                state: Some(kept),
                ..Saved::of(ends)
            });
            ends.lend_again();
            return saved;
        }
        if random.percent(self.course.memory) {
            let saved = Saved::of(ends);
            for _ in 0..random.one_of(&[1, 1, 2, 3]) {
                let output = &mut ends.output_bytes;
                altered::memory(
                    &mut ends.receiver.memory,
                    output,
                    &ends.sender.memory,
                    random,
                );
            }
            ends.counts.altered_memory += 1;
            ends.lend_again();
            return random.percent(70).then_some(saved);
        }
        match random.percent(self.course.short) {
            true => Some(self.shorten()),
            false => None,
        }
    }

    /// One piece of the receiver too short, or a string too long.
    fn shorten(&mut self) -> Saved {
        let saved = Saved {
            state: Some(self.ends.receiver.state_bytes.clone()),
            ..Saved::of(&self.ends)
        };
        let random = &mut self.random;
        let shorter = |bytes: &mut Vec<u8>, limit: usize, random: &mut Random| {
            let any = random.by_size(1, limit as u64) as usize;
            bytes.truncate(limit - random.one_of(&[1, any]));
        };
        let end = &mut self.ends.receiver;
        let cells = end.memory.cells.len();
        let output = self.ends.output_bytes.len();
        match random.between(0, 6) {
            0 => shorter(&mut end.memory.nodes, 65_536, random),
            1 => shorter(&mut end.memory.shingles, 98_304, random),
            2 => shorter(&mut end.memory.cells, cells.max(1), random),
            3 => shorter(&mut end.state_bytes, receiver_state::STATE_BYTES, random),
            4 => end.memory.string.resize(65_537, 7),
            _ => shorter(&mut self.ends.output_bytes, output.max(1), random),
        }
        self.ends.lend_again();
        saved
    }

    /// Sets right what was altered before a call that gave this answer: what the call has left stays.
    fn set_right(&mut self, saved: Saved, answer: u64) {
        let Saved {
            mut memory,
            mut output,
            state,
            before_opening,
        } = saved;
        let ends = &mut self.ends;
        let accepted = answer == 0 || answer >= ACCEPTED;
        if accepted && before_opening {
            memory.shingles.clone_from(&ends.receiver.memory.shingles);
        }
        if accepted {
            let built = receiver_state::read(&ends.receiver.state_bytes).built as usize;
            let both = built.min(output.len()).min(ends.output_bytes.len());
            output[..both].copy_from_slice(&ends.output_bytes[..both]);
        }
        if (1..12).contains(&answer) {
            ends.receiver.state_bytes = state.unwrap_or_else(|| ends.receiver.state_bytes.clone());
        }
        ends.receiver.memory = memory;
        ends.output_bytes = output;
        ends.lend_again();
    }

    /// A message that is forged for the outstanding query, if there is one, or for the opening's.
    fn forge(&mut self) -> Option<(super::forged::Forgery, Vec<u8>)> {
        let sender = &self.ends.sender;
        let receiver = receiver_state::read(&self.ends.receiver.state_bytes);
        let opening = Message {
            session: (self.case.session % (1 << 24)) as u32,
            body: Body::OpeningQuery,
        };
        let query = outstanding(&receiver).filter(has_place).unwrap_or(opening);
        let (settings, width) = held(&sender.state_bytes);
        let mut buffer = vec![0; MOST];
        let answer = reply(
            &settings,
            width,
            &sender.memory,
            &encode(&query),
            &mut buffer,
        );
        buffer.truncate(answer.checked_sub(ACCEPTED)? as usize);
        let string = &sender.memory.string;
        let built = receiver.built.min(string.len() as u64) as usize;
        let known = Known {
            query: &query,
            genuine: &parse(&buffer)?,
            list: &self.ends.receiver.memory.shingle_list(),
            own: &self.ends.receiver.memory.node_list(),
            rest: &string[built..],
            room: self.ends.output_bytes.len(),
            written: &self.written,
        };
        Some(forged(&known, &mut self.random))
    }

    /// Every query answered at once, until the session has none or has had as many as it may.
    fn finish(&mut self) -> Outcome<()> {
        for _ in 0..self.course.rounds {
            let Some(query) = self.query(QUERY)? else {
                return Ok(());
            };
            let Some(reply) = self.reply(&query)? else {
                continue;
            };
            self.take(&reply)?;
        }
        Ok(())
    }

    /// After the opening, the state announces more than 65,536 bytes, which the output holds.
    fn announced(&mut self) -> Outcome<()> {
        let rounds = self.course.rounds;
        self.course.rounds = 1;
        self.finish()?;
        let room = self.ends.output_bytes.len() as u64;
        let length = self.random.between(65_537, room);
        let length = self.random.one_of(&[65_537, room, length]);
        altered::announce(&mut self.ends.receiver.state_bytes, length);
        self.ends.lend_again();
        self.course.rounds = rounds;
        self.finish()
    }

    /// Late messages, and a query that may be there no longer.
    fn afterwards(&mut self) -> Outcome<()> {
        for _ in 0..self.random.between(0, 2) {
            if let Some(late) = self.late() {
                self.ends.take(&late)?;
            }
        }
        self.ends.query(QUERY)?;
        Ok(())
    }
}

/// What is to be set right after a call.
struct Saved {
    memory: Memory,
    output: Vec<u8>,
    state: Option<Vec<u8>>,
    /// Whether an accepted call is the opening's, which changes the list.
    before_opening: bool,
}

impl Saved {
    fn of(ends: &Lockstep) -> Saved {
        let receiver = receiver_state::read(&ends.receiver.state_bytes);
        let query = outstanding(&receiver).map(|query| query.body);
        Saved {
            memory: ends.receiver.memory.clone(),
            output: ends.output_bytes.clone(),
            state: None,
            before_opening: query == Some(Body::OpeningQuery),
        }
    }
}

/// Whether the query's level has a place in a word: an altered state may hold levels that have none, and then no
/// call writes it.
fn has_place(query: &Message) -> bool {
    match query.body {
        Body::NodeQuery { level, .. } => level < 1 << 28,
        _ => true,
    }
}

/// Takes any of the messages that are under way.
fn arrived(way: &mut Vec<Vec<u8>>, random: &mut Random) -> Option<Vec<u8>> {
    let last = way.len().checked_sub(1)? as u64;
    Some(way.swap_remove(random.between(0, last) as usize))
}

/// A query with a bit turned, cut short, or another message.
fn damaged_query(message: &[u8], random: &mut Random) -> Vec<u8> {
    use crate::messages::damage::{damaged, Damage};
    use crate::messages::valid::{self, SMALL};
    match random.between(0, 3) {
        0 => encode(&valid::message(random.between(3, 6) as u32, &SMALL, random)),
        1 => damaged(message, Damage::Edges, random),
        2 => damaged(message, Damage::Cut, random),
        _ => damaged(message, Damage::Bits, random),
    }
}
