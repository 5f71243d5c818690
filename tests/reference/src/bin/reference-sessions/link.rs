//! Genuine sessions over a link that loses, repeats, reorders and delays, with genuine messages of
//! other strings under other session numbers, and compositions whose references do not rise.

use crate::conditions::{no_id_shared, node_query, opens_truly, queries};
use crate::counts::{Claim, Counts};
use crate::forgery::not_rising;
use crate::forms::look_at_other_forms;
use crate::run::{OwnOpening, Run};
use crate::sender_end::{looked_at_reply, memory, SenderEnd, REPLY_BYTES};
use crate::strings;
use reference::message::{encode, Body, Message};
use reference::random::Random;
use reference::rcds::rcds_message_type;
use reference::receiver::{set_up, Answer};
use reference::settings::Settings;
use reference::tree::Node;
use reference::vectors::{ruler, FULL_RULER, RULED};
use std::collections::BTreeSet;

/// Both ends before their setups.
pub struct Ends {
    pub settings: Settings,
    pub width: u64,
    /// The number that the receiver's setup is called with.
    pub number: u64,
    pub sender: Vec<u8>,
    pub own: Vec<u8>,
    pub output_bytes: usize,
    pub label: String,
}

impl Ends {
    /// Any two ends; the buffer holds the sender's string more often than not.
    pub fn any(label: String, random: &mut Random) -> Ends {
        let length = strings::length(random);
        let (settings, width) = strings::settings(length, random);
        let (pair, sender, own) = strings::pair(&settings, length, random);
        let needed = sender.len();
        let output_bytes = match random.between(0, 19) {
            0 => needed.saturating_sub(random.by_size(1, 40) as usize),
            1..=9 => needed,
            _ => needed + random.by_size(1, 300) as usize,
        };
        Ends {
            settings,
            width,
            number: random.number() >> random.between(0, 63),
            sender,
            own,
            output_bytes,
            label: format!("{label} {pair:?}"),
        }
    }

    /// Ends whose trail numbers are high, so that nodes above level L have literals.
    pub fn many_trails(label: String, random: &mut Random) -> Ends {
        let (settings, width, length) = strings::many_trails(random);
        let sender = strings::few_symbols(length, random);
        let mut own = sender.clone();
        strings::edit(&mut own, random);
        Ends {
            settings,
            width,
            number: random.number(),
            output_bytes: sender.len(),
            sender,
            own,
            label: format!("{label} many trails"),
        }
    }

    /// The case in which most replies are accepted: a tree of 4,096 nodes, of which the receiver has
    /// none.
    pub fn most_replies() -> Ends {
        let sender = ruler(FULL_RULER);
        Ends {
            settings: RULED,
            width: 64,
            number: 1,
            output_bytes: sender.len(),
            sender,
            own: vec![1, 2, 3],
            label: "most replies".to_string(),
        }
    }

    /// A sender whose whole string is one of two trails: "With w=2, p=2, L=1, M=2" these eleven bytes have
    /// the blocks a, a, b, a and one more, which a, b, a, a and it have too.
    fn two_trails(string: [u8; 11]) -> Ends {
        Ends {
            settings: Settings {
                window: 2,
                fan_out: 2,
                levels: 1,
                nominal: 2,
            },
            width: 64,
            number: 2,
            sender: string.to_vec(),
            own: vec![9],
            output_bytes: string.len(),
            label: format!("two trails {string:?}"),
        }
    }

    /// The session number on the link.
    pub fn session(&self) -> u32 {
        (self.number % (1 << 24)) as u32
    }
}

/// A session, and what demand 3 says of its list of calls so far.
pub struct Genuine<'a> {
    pub run: Run<'a>,
    pub sender: SenderEnd,
    session: u32,
    /// All queries that the session has, if the conditions hold.
    queries: Option<Vec<Vec<u8>>>,
    /// The queries, by the replies accepted before them, that had no reply delivered yet, and those
    /// that had one.
    missing: BTreeSet<u64>,
    had: BTreeSet<u64>,
}

impl<'a> Genuine<'a> {
    /// Both setups, or the question that one of them has a no for.
    pub fn set_up(
        ends: &Ends,
        random: &mut Random,
        counts: &'a mut Counts,
    ) -> Result<Genuine<'a>, u64> {
        let (settings, width) = (&ends.settings, ends.width);
        let mut own = memory(&ends.own, width, random);
        let receiver = set_up(settings, width, ends.number, &mut own)?;
        let mut sender = SenderEnd::set_up(settings, width, &ends.sender, random)?;
        let met = no_id_shared([&sender.lent, &own])
            && opens_truly(settings, width, &sender.lent, &own)
            && ends.output_bytes >= ends.sender.len();
        let session = ends.session();
        let queries = met.then(|| queries(session, &mut sender, &own, counts));
        counts.met += u64::from(met);
        let output = random.bytes(ends.output_bytes);
        let mut run = Run::new(receiver, own, output, ends.label.clone(), counts);
        let body = Body::OpeningQuery;
        run.own_openings.push(OwnOpening {
            message: sender.reply(&encode(&Message { session, body }), run.counts),
            string: ends.sender.clone(),
        });
        let mut genuine = Genuine {
            run,
            sender,
            session,
            queries,
            missing: BTreeSet::new(),
            had: BTreeSet::new(),
        };
        genuine.look_at_point();
        Ok(genuine)
    }

    /// The genuine reply to a query.
    fn reply(&mut self, query: &[u8]) -> Vec<u8> {
        self.sender.reply(query, self.run.counts)
    }

    /// Takes a genuine message.
    fn take(&mut self, message: &[u8]) {
        let before = self.run.accepted;
        let reply = match (&self.queries, self.run.query()) {
            (Some(_), Some(query)) => Some(self.reply(&query)),
            _ => None,
        };
        let delivered = reply.is_some_and(|reply| reply == message);
        if delivered {
            look_at_other_forms(&mut self.run, &self.sender, message);
        }
        let answer = self.run.take(message);
        if self.queries.is_none() {
            return;
        }
        let what = format!("{answer:?}");
        if delivered {
            let accepted = !matches!(answer, Answer::Refused(_));
            self.run.counts.delivered += 1;
            self.run.claim(Claim::DeliveredIsAccepted, accepted, &what);
            self.missing.remove(&before);
            self.had.insert(before);
        } else {
            let refused = matches!(answer, Answer::Refused(9 | 11));
            self.run.claim(Claim::OthersGet9Or11, refused, &what);
        }
        if let Answer::Handed(length) = answer {
            let right = self.run.output[..length as usize] == self.sender.lent.string;
            self.run.claim(Claim::SendersString, right, &what);
        }
        self.look_at_point();
    }

    /// Takes the reply to the outstanding query with references that do not rise, if it has any, and
    /// then perhaps the genuine one. The sender and the type say of it what the receiver does.
    fn take_not_rising(&mut self, random: &mut Random) {
        let Some(query) = self.run.query() else {
            return;
        };
        let reply = self.reply(&query);
        let Some(falling) = not_rising(&reply, random) else {
            return;
        };
        let taken = self.run.take(&falling);
        let ends = (&self.sender.settings, self.sender.width);
        let (lent, counts) = (&self.sender.lent, &mut *self.run.counts);
        let replied = looked_at_reply(ends, lent, &falling, REPLY_BYTES, counts);
        let read = rcds_message_type(&falling);
        let by_10 = (taken, &replied, read) == (Answer::Refused(10), &Err(10), 10);
        let what = format!("{taken:?}, {replied:?} and {read} for {falling:02x?}");
        self.run.claim(Claim::FallingGets10, by_10, &what);
        self.look_at_point();
        if random.percent(50) {
            let before = self.run.accepted;
            self.take(&reply);
            let accepted = self.run.accepted > before;
            if self.queries.is_some() {
                self.run.claim(Claim::GenuineAfterFalling, accepted, &what);
            }
        }
    }

    /// Looks at the list of calls up to here.
    fn look_at_point(&mut self) {
        let Some(queries) = &self.queries else {
            return;
        };
        let count = self.run.accepted;
        let query = self.run.query();
        let of_tree = queries.get(count as usize) == query.as_ref();
        if query.is_some() && !self.had.contains(&count) {
            self.missing.insert(count);
        }
        let exactly = self.run.handed == self.missing.is_empty();
        self.run
            .claim(Claim::QueriesOfTheTree, of_tree, "the query");
        self.run
            .claim(Claim::ExactlyWhen, exactly, "queries that had a reply");
    }

    /// Every query answered at once, until the session has none, or has had more than it may.
    pub fn finish(&mut self) {
        let most = self.queries.as_ref().map_or(4_097, Vec::len) as u64;
        while self.run.accepted <= most {
            let Some(query) = self.run.write(24) else {
                return;
            };
            let reply = self.reply(&query);
            let before = self.run.accepted;
            self.take(&reply);
            if self.run.accepted == before {
                return;
            }
        }
    }
}

/// What is under way between the ends.
struct Link {
    queries: Vec<Vec<u8>>,
    replies: Vec<Vec<u8>>,
    /// Everything that the sender wrote, to come late.
    written: Vec<Vec<u8>>,
    loss: u64,
    repeat: u64,
}

/// Puts something on the link: lost, once or twice.
fn send(way: &mut Vec<Vec<u8>>, message: Vec<u8>, loss: u64, repeat: u64, random: &mut Random) {
    if random.percent(loss) {
        return;
    }
    if random.percent(repeat) {
        way.push(message.clone());
    }
    way.push(message);
}

/// Takes any of the messages that are under way.
fn arrive(way: &mut Vec<Vec<u8>>, random: &mut Random) -> Option<Vec<u8>> {
    match way.len() {
        0 => None,
        count => Some(way.swap_remove(random.place(count))),
    }
}

/// A genuine session of two ends.
pub fn session(ends: &Ends, finished: bool, random: &mut Random, counts: &mut Counts) {
    counts.sessions += 1;
    let mut genuine = match Genuine::set_up(ends, random, counts) {
        Ok(genuine) => genuine,
        Err(_) => {
            counts.setups_refused += 1;
            return;
        }
    };
    let mut others = others(random);
    let mut link = Link {
        queries: Vec::new(),
        replies: Vec::new(),
        written: Vec::new(),
        loss: random.one_of(&[0, 10, 30, 60]),
        repeat: random.one_of(&[0, 10, 30]),
    };
    let all = genuine.queries.as_ref().map_or(3, Vec::len) as u64;
    for _ in 0..random.between(0, 25 * all.min(400)) {
        turn(&mut genuine, &mut others, &mut link, random);
    }
    if finished {
        genuine.finish();
    }
    for late in link.written.iter().rev().take(5) {
        genuine.take(late);
    }
    genuine.run.write(24);
    let accepted = genuine.run.accepted;
    counts.most = counts.most.max(accepted);
}

/// The session of most replies, to its end.
pub fn most_replies(random: &mut Random, counts: &mut Counts) {
    session(&Ends::most_replies(), true, random, counts);
    let most = counts.most;
    let case = || format!("{most} replies accepted");
    counts.claim(Claim::BoundIsReached, most == 4_097, case);
}

/// Strings of which one is the first and one the second of two trails.
const TWO_TRAILS: [[u8; 11]; 2] = [
    [1, 255, 1, 255, 0, 0, 1, 255, 0, 0, 0],
    [1, 255, 1, 255, 1, 0, 1, 255, 0, 0, 0],
];

/// Sessions of both, to their ends.
pub fn two_trails(random: &mut Random, counts: &mut Counts) {
    for string in TWO_TRAILS {
        session(&Ends::two_trails(string), true, random, counts);
    }
}

/// One thing that happens at an end or on the link.
fn turn(genuine: &mut Genuine, others: &mut [SenderEnd], link: &mut Link, random: &mut Random) {
    let (loss, repeat) = (link.loss, link.repeat);
    match random.between(0, 20) {
        0..=5 => {
            let bytes = random.one_of(&[0, 7, 8, 23, 24, 24, 24, 24, 100]);
            if let Some(query) = genuine.run.write(bytes) {
                send(&mut link.queries, query, loss, repeat, random);
            }
        }
        6..=11 => {
            if let Some(query) = arrive(&mut link.queries, random) {
                let reply = genuine.reply(&query);
                link.written.push(reply.clone());
                send(&mut link.replies, reply, loss, repeat, random);
            }
        }
        12..=17 => {
            if let Some(reply) = arrive(&mut link.replies, random) {
                genuine.take(&reply);
            }
        }
        18 if !link.written.is_empty() => genuine.take(&random.one_of(&link.written)),
        19 => genuine.take_not_rising(random),
        _ => {
            let stray = stray(genuine, others, random);
            genuine.take(&stray);
        }
    }
}

/// Senders of other strings.
fn others(random: &mut Random) -> Vec<SenderEnd> {
    let length = random.by_size(0, 200) as usize;
    let (settings, width) = strings::settings(length, random);
    let string = strings::string(length, random);
    let other = SenderEnd::set_up(&settings, width, &string, random);
    other.into_iter().collect()
}

/// A genuine message that nobody here asked for: a reply to any query under this number by the
/// sender, or under another number by anyone.
fn stray(genuine: &mut Genuine, others: &mut [SenderEnd], random: &mut Random) -> Vec<u8> {
    let own = genuine.run.lent.node_list();
    let this = genuine.session;
    let other = (this + random.between(1, (1 << 24) - 1) as u32) % (1 << 24);
    let counts = &mut *genuine.run.counts;
    let (sender, session) = match (random.between(0, 2), others.first_mut()) {
        (0, Some(sender)) => (sender, other),
        (1, _) => (&mut genuine.sender, other),
        _ => (&mut genuine.sender, this),
    };
    let nodes = sender.lent.node_list();
    let mut node: Node = match random.between(0, 2) {
        0 => random.one_of(&own),
        _ => random.one_of(&nodes),
    };
    if random.percent(20) {
        node.level = random.between(0, 5);
    }
    let query = match random.between(0, 3) {
        0 => encode(&Message {
            session,
            body: Body::OpeningQuery,
        }),
        _ => node_query(session, &node),
    };
    sender.reply(&query, counts)
}
