//! A sender with its memory, whose replies are looked at as they are written.

use crate::counts::{Claim, Counts};
use crate::forms::look_at_form;
use reference::lent::Lent;
use reference::message::{parse, Body};
use reference::random::Random;
use reference::rcds::ACCEPTED;
use reference::reply::reply;
use reference::settings::Settings;
use std::collections::HashMap;

/// More than any reply has.
pub const REPLY_BYTES: usize = 100_000;

/// Memory for a string and its tables, long enough or longer, with anything in it.
pub fn memory(string: &[u8], width: u64, random: &mut Random) -> Lent {
    let content = random.number() as u8;
    let more = random.one_of(&[0, 0, 0, 1, 24, 1_000]);
    Lent {
        string: string.to_vec(),
        nodes: vec![content; 4_096 * 16 + more],
        shingles: vec![content; 4_096 * 24 + more],
        cells: vec![content; 3 * width as usize * 40 + more],
    }
}

/// The reply to a message in a buffer of so many bytes, or the question that has a no.
pub fn looked_at_reply(
    (settings, width): (&Settings, u64),
    lent: &Lent,
    message: &[u8],
    buffer_bytes: usize,
    counts: &mut Counts,
) -> Result<Vec<u8>, u64> {
    const BEFORE: u8 = 0xa5;
    let mut buffer = vec![BEFORE; buffer_bytes];
    let answer = reply(settings, width, lent, message, &mut buffer);
    let case = || format!("answer {answer} to {message:02x?}");
    if answer < ACCEPTED {
        *counts.replies_refused.entry(answer).or_default() += 1;
        let own = matches!(answer, 1..=7 | 10 | 11 | 20);
        let unchanged = buffer.iter().all(|&byte| byte == BEFORE);
        counts.claim(Claim::OwnQuestions, own, case);
        counts.claim(Claim::NoChangesNothing, unchanged, case);
        return Err(answer);
    }
    let written = buffer[..(answer - ACCEPTED) as usize].to_vec();
    let rest = &buffer[written.len()..];
    let right = is_reply(message, &written) && rest.iter().all(|&byte| byte == BEFORE);
    counts.claim(Claim::Replies, right, case);
    Ok(written)
}

/// "To type 1 the sender replies type 3", to type 2 one of types 4 to 6 with its level and id, and
/// "Session is copied."
pub fn is_reply(query: &[u8], reply: &[u8]) -> bool {
    let (Some(query), Some(reply)) = (parse(query), parse(reply)) else {
        return false;
    };
    let asked = match reply.body {
        Body::Opening(_) => Body::OpeningQuery,
        Body::Composition { level, id, .. }
        | Body::Literal { level, id, .. }
        | Body::None { level, id } => Body::NodeQuery { level, id },
        _ => return false,
    };
    (query.session, query.body) == (reply.session, asked)
}

/// A sender after an accepted setup.
pub struct SenderEnd {
    pub settings: Settings,
    pub width: u64,
    pub lent: Lent,
    /// The replies by their queries, and how often each was asked for.
    written: HashMap<Vec<u8>, (Vec<u8>, u64)>,
    /// The memory of a second setup over the same string, once it is needed.
    again: Option<Lent>,
}

impl SenderEnd {
    /// The setup, or the question that has a no.
    pub fn set_up(
        settings: &Settings,
        width: u64,
        string: &[u8],
        random: &mut Random,
    ) -> Result<SenderEnd, u64> {
        let mut lent = memory(string, width, random);
        let answer = lent.set_up(settings, width);
        if answer < ACCEPTED {
            return Err(answer);
        }
        Ok(SenderEnd {
            settings: *settings,
            width,
            lent,
            written: HashMap::new(),
            again: None,
        })
    }

    /// The genuine reply to a query. It depends on nothing else, so it is worked out once; a
    /// composition a second time, when it is first asked for again.
    pub fn reply(&mut self, query: &[u8], counts: &mut Counts) -> Vec<u8> {
        if let Some((reply, asked)) = self.written.get_mut(query) {
            *asked += 1;
            let (reply, second) = (reply.clone(), *asked == 2);
            if second {
                self.look_at_composition(query, &reply, counts);
            }
            return reply;
        }
        let ends = (&self.settings, self.width);
        let reply = looked_at_reply(ends, &self.lent, query, REPLY_BYTES, counts)
            .expect("a query has a reply");
        look_at_form(&self.lent, &reply, counts);
        self.written.insert(query.to_vec(), (reply.clone(), 1));
        reply
    }

    /// Writes a composition again, over the tables that a setup of the same string leaves in memory
    /// of other lengths and another content.
    fn look_at_composition(&mut self, query: &[u8], reply: &[u8], counts: &mut Counts) {
        let body = parse(reply).map(|reply| reply.body);
        if !matches!(body, Some(Body::Composition { .. })) {
            return;
        }
        let (settings, width) = (&self.settings, self.width);
        let again = self.again.get_or_insert_with(|| {
            let mut again = Lent {
                string: self.lent.string.clone(),
                nodes: vec![0xc3; 4_097 * 16],
                shingles: vec![0xc3; 4_097 * 24],
                cells: vec![0xc3; (3 * width as usize + 1) * 40],
            };
            assert!(again.set_up(settings, width) >= ACCEPTED);
            again
        });
        let second = looked_at_reply((settings, width), again, query, REPLY_BYTES, counts);
        let same = second.as_deref() == Ok(reply);
        let case = || format!("two compositions for {query:02x?}");
        counts.claim(Claim::OneComposition, same, case);
    }
}
