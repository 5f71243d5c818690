//! A forged sender that never comes to an end: every node has 32 children, and every block of the last
//! level is empty. Question 15 ends it after 4,097 replies. Or question 17, where a node has 33.

use super::lockstep::{Lockstep, Outcome};
use reference::message::{encode, parse, Body, Message};
use reference::shingle::Shingle;
use reference::sketch::sketch;
use reference::word::Reference;

/// The id that no node has.
const ENDLESS: u64 = 0x1234_5678_9abc_def1;

/// More bytes than the messages have.
const ENOUGH: usize = 14_000;

/// Takes the forged messages until one is refused, or the string is handed over. The nodes of one level, if
/// there is one that is said, have 33 children.
pub fn run(ends: &mut Lockstep, too_many: Option<u32>) -> Outcome<()> {
    let mut query = ends.query(24)?;
    let opening = match &query {
        Some(query) => ends.reply(query, ENOUGH)?,
        None => None,
    };
    let Some(opening) = opening.and_then(|opening| forged_opening(&opening, ends)) else {
        return Ok(());
    };
    let mut answer = ends.take(&opening)?;
    while answer == 0 {
        query = ends.query(24)?;
        let list = ends.receiver.memory.shingle_list();
        let levels = ends.receiver.state_bytes[23];
        let reply =
            query.and_then(|query| forged_reply(&query, &list, u32::from(levels), too_many));
        let Some(reply) = reply else {
            return Ok(());
        };
        answer = ends.take(&reply)?;
    }
    Ok(())
}

/// The opening of a list that has, at each level from 1 on, the pairs of 33 and more equal children.
fn forged_opening(genuine: &[u8], ends: &Lockstep) -> Option<Vec<u8>> {
    let Message { session, body } = parse(genuine)?;
    let Body::Opening(mut opening) = body else {
        return None;
    };
    let mut list = ends.receiver.memory.shingle_list();
    for level in 1..=u64::from(opening.levels) {
        list.extend([0, ENDLESS].map(|previous| Shingle {
            level,
            previous,
            own: ENDLESS,
            count: 32,
        }));
    }
    opening.cells = sketch(&list, u64::from(opening.width));
    opening.root = ENDLESS;
    let body = Body::Opening(opening);
    Some(encode(&Message { session, body }))
}

/// 32 equal children, or one more; at the last level no bytes.
fn forged_reply(
    query: &[u8],
    list: &[Shingle],
    levels: u32,
    too_many: Option<u32>,
) -> Option<Vec<u8>> {
    let Message { session, body } = parse(query)?;
    let Body::NodeQuery { level, id } = body else {
        return None;
    };
    let reference = |previous: u64, count: u32| {
        let pair = (u64::from(level) + 1, previous, ENDLESS);
        let index = list.iter().position(|shingle| shingle.pair() == pair)? as u32;
        Some(Reference { index, count })
    };
    let equal = 31 + u32::from(too_many == Some(level));
    let body = match level < levels {
        true => Body::Composition {
            level,
            id,
            // Equal children have one order.
            number: None,
            references: vec![reference(0, 1)?, reference(ENDLESS, equal)?],
        },
        false => Body::Literal {
            level,
            id,
            bytes: Vec::new(),
        },
    };
    Some(encode(&Message { session, body }))
}
