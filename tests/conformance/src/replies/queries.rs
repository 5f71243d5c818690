//! Messages for a sender: queries for its nodes, for nodes that it has not, and other messages.

use super::setup::Sender;
use crate::messages::damage::{damaged, Damage};
use crate::messages::numbers::{in_other_form, misplaced, MISPLACED};
use crate::messages::order::{disordered, DISORDERS};
use crate::messages::valid::{self, SMALL};
use crate::random::Random;
use reference::message::{encode, parse, Body, Message};
use reference::shingle::children;
use reference::trail::{is_only_trail, number_of_order, MOST_NUMBER};
use reference::tree::Node;
use std::collections::BTreeMap;

/// The kinds of damage that any message can have.
const DAMAGES: [Damage; 9] = [
    Damage::Bits,
    Damage::Bytes,
    Damage::Words,
    Damage::Edges,
    Damage::Dropped,
    Damage::Repeated,
    Damage::Swapped,
    Damage::Cut,
    Damage::Lengthened,
];

/// The largest number of 28 bits.
const LARGEST: u32 = (1 << 28) - 1;

/// A session: the least, the largest, or any.
fn session(random: &mut Random) -> u32 {
    let any = random.number() as u32 >> 8;
    random.one_of(&[0, 1, (1 << 24) - 1, any, any, any])
}

pub fn opening_query(random: &mut Random) -> Vec<u8> {
    let session = session(random);
    encode(&Message {
        session,
        body: Body::OpeningQuery,
    })
}

pub fn node_query(level: u32, id: u64, random: &mut Random) -> Vec<u8> {
    let session = session(random);
    encode(&Message {
        session,
        body: Body::NodeQuery { level, id },
    })
}

/// A query for one of these nodes.
fn of_one(nodes: &[Node], random: &mut Random) -> Vec<u8> {
    let node = random.one_of(nodes);
    node_query(node.level as u32, node.id, random)
}

/// A query for a node of a level, the levels in turn.
pub fn of_any_level(sender: &Sender, place: usize, random: &mut Random) -> Vec<u8> {
    let level = place as u64 % (sender.settings.levels + 1);
    let mut nodes = sender.nodes();
    nodes.retain(|node| node.level == level);
    of_one(&nodes, random)
}

pub fn of_the_root(sender: &Sender, random: &mut Random) -> Vec<u8> {
    of_one(&sender.nodes()[..1], random)
}

pub fn of_the_last_level(sender: &Sender, random: &mut Random) -> Vec<u8> {
    of_any_level(sender, sender.settings.levels as usize, random)
}

/// A query for a node that the table has several times, or for any.
pub fn of_a_repeated_node(sender: &Sender, random: &mut Random) -> Vec<u8> {
    let nodes = sender.nodes();
    let mut often: BTreeMap<(u64, u64), usize> = BTreeMap::new();
    for node in &nodes {
        *often.entry((node.level, node.id)).or_default() += 1;
    }
    let repeated = |node: &&Node| often[&(node.level, node.id)] > 1;
    let repeated: Vec<Node> = nodes.iter().filter(repeated).copied().collect();
    match repeated.is_empty() {
        true => of_one(&nodes, random),
        false => of_one(&repeated, random),
    }
}

/// A query for a node whose children have a number above 4,095, or one of two bytes that is not, in
/// turn; or for any.
pub fn of_a_high_number(sender: &Sender, place: usize, random: &mut Random) -> Vec<u8> {
    let nodes = sender.nodes();
    let high = |k: &usize| {
        let ids: Vec<u64> = children(&nodes, *k).iter().map(|child| child.id).collect();
        let number = number_of_order(&ids);
        number.is_some_and(|number| match place % 2 {
            0 => number > MOST_NUMBER,
            _ => (256..=MOST_NUMBER).contains(&number),
        })
    };
    let with_high: Vec<Node> = (0..nodes.len()).filter(high).map(|k| nodes[k]).collect();
    match with_high.is_empty() {
        true => of_one(&nodes, random),
        false => of_one(&with_high, random),
    }
}

/// The nodes whose children's trail is the only one though an id comes again, or the first of several, or
/// another of them, in turn.
pub fn with_trails(sender: &Sender, place: usize) -> Vec<Node> {
    let nodes = sender.nodes();
    let is = |k: &usize| {
        let mut ids: Vec<u64> = children(&nodes, *k).iter().map(|child| child.id).collect();
        let Some(number) = number_of_order(&ids) else {
            return false;
        };
        let only = is_only_trail(&ids);
        let all = ids.len();
        ids.sort();
        ids.dedup();
        match place % 3 {
            0 => only && ids.len() < all,
            1 => !only && number == 0,
            _ => !only && (1..=MOST_NUMBER).contains(&number),
        }
    };
    (0..nodes.len()).filter(is).map(|k| nodes[k]).collect()
}

/// A query for one of those, or for any where there is none.
pub fn of_several_trails(sender: &Sender, place: usize, random: &mut Random) -> Vec<u8> {
    let such = with_trails(sender, place);
    match such.is_empty() {
        true => of_one(&sender.nodes(), random),
        false => of_one(&such, random),
    }
}

/// A query for one node after the other, and from the first on again.
pub fn of_each(sender: &Sender, place: usize, random: &mut Random) -> Vec<u8> {
    let nodes = sender.nodes();
    let node = nodes[place % nodes.len()];
    node_query(node.level as u32, node.id, random)
}

/// A query for a node above the last level, and a length of string that ends inside the next entry
/// which is not deeper, with the first of its children inside; if the sender has such nodes.
pub fn with_end_outside(sender: &Sender, random: &mut Random) -> Option<(Vec<u8>, usize)> {
    let nodes = sender.nodes();
    let end = |k: usize| (k + 1..nodes.len()).find(|&m| nodes[m].level <= nodes[k].level);
    let mut found = Vec::new();
    for k in 0..nodes.len() {
        let Some(m) = end(k).filter(|_| nodes[k].level < sender.settings.levels) else {
            continue;
        };
        let first = children(&nodes, m).first().copied();
        if let Some(first) = first.filter(|first| first.length < nodes[m].length) {
            let (least, most) = (first.start + first.length, nodes[m].start + nodes[m].length);
            found.push((nodes[k], least as u64, most as u64 - 1));
        }
    }
    if found.is_empty() {
        return None;
    }
    let (node, least, most) = random.one_of(&found);
    let query = node_query(node.level as u32, node.id, random);
    Some((query, random.between(least, most) as usize))
}

/// How many kinds of nodes that are not there `absent` has.
pub const ABSENT: usize = 14;

/// A query for a node that the table has not, or has by chance: a node's level and id with one of them
/// changed, also so that only its low bits are as they were.
pub fn absent(sender: &Sender, place: usize, random: &mut Random) -> Vec<u8> {
    let nodes = sender.nodes();
    let node = random.one_of(&nodes);
    let (level, id) = (node.level as u32, node.id);
    let last = sender.settings.levels as u32;
    let (level, id) = match place % ABSENT {
        0 => (level + 1, id),
        1 => (level.saturating_sub(1), id),
        2 => (last - level, id),
        3 => (last + 1, id),
        4 => (7, id),
        5 => (LARGEST, id),
        6 => (level + 8, id),
        7 => (level + 256, id),
        8 => (level, 0),
        9 => (0, 0),
        10 => (level, id ^ 1 << random.between(0, 63)),
        11 => (level, id ^ 1 << 32),
        12 => (level, id.swap_bytes()),
        _ => (random.between(0, 9) as u32, random.number()),
    };
    node_query(level, id, random)
}

/// A query with damage, the kinds in turn.
pub fn damaged_query(sender: &Sender, place: usize, random: &mut Random) -> Vec<u8> {
    let query = any(sender, place / DAMAGES.len(), random);
    match place % 40 {
        39 => Vec::new(),
        _ => damaged(&query, DAMAGES[place % DAMAGES.len()], random),
    }
}

/// A message of a type from 3 to 6, well formed or with damage: a reply of the sender itself, or any.
pub fn other_type(sender: &Sender, place: usize, random: &mut Random) -> Vec<u8> {
    let mut message = match place % 3 {
        0 => own_reply(sender, place / 3, random),
        _ => encode(&valid::message(3 + place as u32 % 4, &SMALL, random)),
    };
    if random.between(0, 3) == 0 {
        message = damaged(&message, random.one_of(&DAMAGES), random);
    }
    message
}

/// A composition whose references rise: the sender's own, where the node has one, with or without its number,
/// or any.
pub fn composition(sender: &Sender, random: &mut Random) -> Vec<u8> {
    let level = random.between(0, sender.settings.levels - 1) as usize;
    let query = of_any_level(sender, level, random);
    let own = replied(sender, &query);
    let body = parse(&own).map(|reply| reply.body);
    match body {
        Some(Body::Composition { .. }) if random.percent(30) => own,
        Some(Body::Composition { .. }) if random.percent(40) => {
            in_other_form(&own, random).expect("a composition")
        }
        _ => encode(&valid::message(4, &SMALL, random)),
    }
}

/// A composition whose references do not rise, and which is right otherwise; the disorders in turn.
pub fn not_rising(sender: &Sender, place: usize, random: &mut Random) -> Vec<u8> {
    let disorder = DISORDERS[place % DISORDERS.len()];
    loop {
        let whole = composition(sender, random);
        if let Some(changed) = disordered(&whole, disorder, random) {
            return changed;
        }
    }
}

/// A composition with a number word where none may stand, and which is right otherwise; the places in turn.
pub fn misplaced_number(sender: &Sender, place: usize, random: &mut Random) -> Vec<u8> {
    let kind = MISPLACED[place % MISPLACED.len()];
    loop {
        let whole = composition(sender, random);
        if let Some(changed) = misplaced(&whole, kind, random) {
            return changed;
        }
    }
}

/// What the sender itself replies to a query for any of its nodes.
fn own_reply(sender: &Sender, place: usize, random: &mut Random) -> Vec<u8> {
    let query = any(sender, place, random);
    replied(sender, &query)
}

/// What the sender itself replies to a query.
fn replied(sender: &Sender, query: &[u8]) -> Vec<u8> {
    let mut buffer = vec![0; sender.reply_length(query)];
    let _ = reference::reply::reply(
        &sender.settings,
        sender.width,
        &sender.lent,
        query,
        &mut buffer,
    );
    assert!(parse(&buffer).is_some(), "a reply is a message");
    buffer
}

/// An opening query, or a query for a node of any level.
pub fn any(sender: &Sender, place: usize, random: &mut Random) -> Vec<u8> {
    match place % 5 {
        0 => opening_query(random),
        _ => of_any_level(sender, place / 5, random),
    }
}
