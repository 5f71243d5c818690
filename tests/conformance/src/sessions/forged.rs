//! Forged and damaged messages for a receiver.

use super::named::named;
use crate::messages::damage::{damaged, Damage};
use crate::messages::numbers::{in_other_form, misplaced, MISPLACED};
use crate::messages::order::in_any_disorder;
use crate::messages::valid::{self, SMALL};
use crate::random::Random;
use reference::eulerian::trails_from;
use reference::message::{encode, Body, Message, Opening};
use reference::shingle::Shingle;
use reference::sketch::sketch;
use reference::tree::Node;
use reference::word::Reference;

/// What is forged.
#[derive(Clone, Copy, Debug, PartialEq, Eq, PartialOrd, Ord)]
pub enum Forgery {
    /// Bits, bytes or words changed, dropped, repeated, exchanged, cut off or put on.
    Damaged,
    /// The words of one message, and from some place on those of another.
    Spliced,
    OtherSession,
    OtherLevel,
    OtherId,
    /// The query itself.
    Query,
    /// Any well-formed message.
    AnyMessage,
    AnyBytes,
    /// An opening with another rule, and nothing else that is not genuine.
    Rule,
    /// One with another rule or other settings, length, root or cells.
    Settings,
    Length,
    Root,
    /// The root and the length of a node that the receiver has.
    OwnRoot,
    Cells,
    /// The cells of a list with something else in it, and of the own list with one shingle once more.
    OtherList,
    OwnTwice,
    /// A reply to a node's query: a none, a literal of any bytes, one of all bytes that are left, a
    /// composition of another number, without its number or with one that it omits, with number words
    /// twice or elsewhere, with other counts or references, of any references, or with references that do
    /// not rise.
    None,
    Literal,
    Rest,
    Number,
    OtherForm,
    Misplaced,
    Counts,
    References,
    Composition,
    Order,
}

/// Of every message, of an opening, and of a reply to a node's query.
const OF_ANY: [Forgery; 8] = [
    Forgery::Damaged,
    Forgery::Spliced,
    Forgery::OtherSession,
    Forgery::OtherLevel,
    Forgery::OtherId,
    Forgery::Query,
    Forgery::AnyMessage,
    Forgery::AnyBytes,
];
const OF_OPENINGS: [Forgery; 8] = [
    Forgery::Rule,
    Forgery::Settings,
    Forgery::Length,
    Forgery::Root,
    Forgery::OwnRoot,
    Forgery::Cells,
    Forgery::OtherList,
    Forgery::OwnTwice,
];
const OF_NODES: [Forgery; 10] = [
    Forgery::None,
    Forgery::Literal,
    Forgery::Rest,
    Forgery::Number,
    Forgery::OtherForm,
    Forgery::Misplaced,
    Forgery::Counts,
    Forgery::References,
    Forgery::Composition,
    Forgery::Order,
];

/// All of them.
pub fn forgeries() -> impl Iterator<Item = Forgery> {
    OF_ANY.into_iter().chain(OF_OPENINGS).chain(OF_NODES)
}

/// The largest number of 28 bits.
const LARGEST: u32 = (1 << 28) - 1;

/// Rules that are not 3: the smallest number, those of the rules before, the next, and the largest.
pub const OTHER_RULES: [u32; 5] = [0, 1, 2, 4, LARGEST];

const DAMAGES: [Damage; 9] = [
    Damage::Bits,
    Damage::Bytes,
    Damage::Words,
    Damage::Edges,
    Damage::Dropped,
    Damage::Repeated,
    Damage::Swapped,
    Damage::Cut,
    Damage::Lengthened,
];

/// What a forger knows.
pub struct Known<'a> {
    /// The outstanding query, and the sender's reply to it.
    pub query: &'a Message,
    pub genuine: &'a Message,
    /// The receiver's list and its own nodes.
    pub list: &'a [Shingle],
    pub own: &'a [Node],
    /// What the sender's string has from the bytes built on.
    pub rest: &'a [u8],
    /// The bytes of the output buffer.
    pub room: usize,
    /// Messages that the sender wrote.
    pub written: &'a [Vec<u8>],
}

/// A forged message, and of which kind.
pub fn forged(known: &Known, random: &mut Random) -> (Forgery, Vec<u8>) {
    let of_type: &[Forgery] = match known.genuine.body {
        Body::Opening(_) => &OF_OPENINGS,
        _ => &OF_NODES,
    };
    let kind = match random.percent(40) {
        true => random.one_of(&OF_ANY),
        false => random.one_of(of_type),
    };
    let mut message = known.genuine.clone();
    let bytes = match (kind, &mut message.body) {
        (Forgery::Damaged, _) => damaged(&encode(&message), random.one_of(&DAMAGES), random),
        (Forgery::Spliced, _) => spliced(&encode(&message), known.written, random),
        (Forgery::Query, _) => encode(known.query),
        (Forgery::AnyMessage, _) => {
            encode(&valid::message(random.between(1, 6) as u32, &SMALL, random))
        }
        (Forgery::AnyBytes, _) => {
            let length = random.by_size(0, 60) as usize;
            random.bytes(length)
        }
        (Forgery::OtherSession, _) => {
            let any = random.number() as u32 >> 8;
            message.session ^= random.one_of(&[1, 1 << 8, 1 << 16, 1 << 23, any]);
            encode(&message)
        }
        (_, Body::Opening(opening)) => {
            change_opening(kind, opening, known, random);
            encode(&message)
        }
        _ => node_message(kind, message, known, random),
    };
    (kind, bytes)
}

/// The first words of a message and the last ones of one that was written before, the end set right
/// more often than not.
fn spliced(message: &[u8], written: &[Vec<u8>], random: &mut Random) -> Vec<u8> {
    let Some(last) = written.len().checked_sub(1) else {
        return message.to_vec();
    };
    let other = &written[random.between(0, last as u64) as usize];
    let place = |length: usize, random: &mut Random| {
        let words = length as u64 / 4;
        let most = random.one_of(&[words, words.min(7)]);
        4 * random.between(0, most) as usize
    };
    let (end, start) = (place(message.len(), random), place(other.len(), random));
    let mut bytes = [&message[..end], &other[start..]].concat();
    if random.percent(80) && bytes.len() >= 4 {
        let words = bytes.len() / 4;
        bytes[4 * words - 4..].copy_from_slice(&(6 << 28 | words as u32).to_be_bytes());
    }
    bytes
}

fn change_opening(kind: Forgery, opening: &mut Opening, known: &Known, random: &mut Random) {
    let length = opening.length;
    match kind {
        Forgery::Rule => opening.rule = random.one_of(&OTHER_RULES),
        Forgery::Settings => other_settings(opening, random),
        // A length that only the buffer allows.
        Forgery::Length if known.room > 65_536 && random.percent(50) => {
            opening.length = random.one_of(&[65_537, known.room as u32]);
        }
        Forgery::Length => {
            let room = known.room as u32;
            opening.length = random.one_of(&[
                0,
                length + 1,
                length.saturating_sub(1),
                room,
                room + 1,
                65_536,
                65_537,
                LARGEST,
            ]);
        }
        Forgery::Root => {
            let any = random.number();
            opening.root = random.one_of(&[0, 1, any, opening.root ^ 1, opening.root ^ 1 << 63]);
        }
        Forgery::OtherId | Forgery::OwnRoot if !known.own.is_empty() => {
            let node = random.one_of(known.own);
            opening.root = node.id;
            opening.length = match random.between(0, 3) {
                0 => length,
                1 => node.length as u32 + 1,
                _ => node.length as u32,
            };
        }
        Forgery::OtherLevel | Forgery::Cells => other_cells(opening, random),
        Forgery::OwnTwice if !known.list.is_empty() => {
            let again = random.one_of(known.list);
            let list = [known.list, &[again]].concat();
            opening.cells = sketch(&list, u64::from(opening.width));
        }
        _ => opening.cells = sketch(&other_list(known.list, random), u64::from(opening.width)),
    }
}

/// Another rule, or one of the settings another number; other widths with as many cells.
fn other_settings(opening: &mut Opening, random: &mut Random) {
    let setting = match random.between(0, 5) {
        0 => &mut opening.rule,
        1 => &mut opening.window,
        2 => &mut opening.fan_out,
        3 => &mut opening.levels,
        4 => &mut opening.nominal,
        _ => &mut opening.width,
    };
    *setting = match random.between(0, 4) {
        0 => *setting + 1,
        1 => setting.saturating_sub(1),
        2 => *setting + 256,
        3 => *setting + 65_536,
        _ => random.by_size(0, u64::from(LARGEST)) as u32,
    } % (1 << 28);
    if opening.width as usize * 3 != opening.cells.len() {
        opening.width %= 80;
        opening.cells.resize(3 * opening.width as usize, [0; 5]);
    }
}

fn other_cells(opening: &mut Opening, random: &mut Random) {
    let cells = &mut opening.cells;
    let place = random.between(0, cells.len() as u64 - 1) as usize;
    match random.between(0, 4) {
        0 => cells[place][random.between(0, 4) as usize] ^= 1 << random.between(0, 63),
        1 => cells[place] = [0; 5].map(|_: u64| random.number()),
        2 => cells.rotate_left(place),
        3 => cells.fill([0; 5]),
        _ => cells[place] = [0; 5],
    }
}

/// The list with a shingle of any kind added, some taken out, or a count changed.
fn other_list(list: &[Shingle], random: &mut Random) -> Vec<Shingle> {
    let mut other = list.to_vec();
    other.retain(|shingle| shingle.level < 1 << 16);
    if other.is_empty() {
        return other;
    }
    let place = random.between(0, other.len() as u64 - 1) as usize;
    let (id, first) = (other[place].own, other[0].own);
    match random.between(0, 5) {
        0 => drop(other.remove(place)),
        1 => other.truncate(place),
        2 => other[place].count = random.between(1, 4_096),
        _ => other.push(Shingle {
            level: random.between(0, 5),
            previous: random.one_of(&[0, id]),
            own: random.one_of(&[0, 1, id, first]),
            count: random.by_size(1, 4_097),
        }),
    }
    other
}

/// The bytes of a reply that is forged for the node of the genuine one.
fn node_message(kind: Forgery, genuine: Message, known: &Known, random: &mut Random) -> Vec<u8> {
    let body = node_reply(kind, &genuine.body, known, random);
    let whole = encode(&Message { body, ..genuine });
    let changed = match kind {
        Forgery::Order => in_any_disorder(&whole, random).map(|(_, changed)| changed),
        Forgery::OtherForm => in_other_form(&whole, random),
        Forgery::Misplaced => {
            let kind = random.one_of(&MISPLACED);
            misplaced(&whole, kind, random)
        }
        _ => None,
    };
    changed.unwrap_or(whole)
}

/// What such a reply says, its references in order or nearly always so.
fn node_reply(kind: Forgery, genuine: &Body, known: &Known, random: &mut Random) -> Body {
    let mut body = genuine.clone();
    let (level, id) = match &body {
        Body::Composition { level, id, .. }
        | Body::Literal { level, id, .. }
        | Body::None { level, id } => (*level, *id),
        _ => return body,
    };
    match (kind, &mut body) {
        (Forgery::OtherLevel, _) => {
            let other = random.one_of(&[level + 1, level.saturating_sub(1), level + 8, LARGEST]);
            with_node(body, other, id)
        }
        (Forgery::OtherId, _) => {
            let own = match known.own.is_empty() {
                true => 0,
                false => random.one_of(known.own).id,
            };
            with_node(
                body,
                level,
                random.one_of(&[0, own, id ^ 1, id ^ 1 << 32, id ^ 1 << 63]),
            )
        }
        (Forgery::None, _) => Body::None { level, id },
        (Forgery::Rest, _) => {
            let bytes = known.rest.to_vec();
            Body::Literal { level, id, bytes }
        }
        (Forgery::Literal, Body::Literal { bytes, .. }) if random.percent(50) => {
            match bytes.is_empty() {
                true => bytes.push(0),
                false => bytes[0] ^= 1,
            }
            body
        }
        (Forgery::Literal, _) => literal(level, id, known.rest.len(), random),
        (Forgery::Number, Body::Composition { number, .. }) => {
            let held = number.unwrap_or(0);
            let near = [held + 1, held.saturating_sub(1)];
            let other = [0, near[0], near[1], 4_095, 4_096, LARGEST];
            *number = Some(random.one_of(&other));
            body
        }
        (Forgery::Counts, Body::Composition { references, .. }) if !references.is_empty() => {
            let of = |reference: &Reference| known.list.get(reference.index as usize);
            // One more of a pair of equal ids is a trail again.
            let equal = |r: &Reference| of(r).is_some_and(|s| s.previous == s.own);
            let any = random.between(0, references.len() as u64 - 1) as usize;
            let place = match random.percent(60) {
                true => references.iter().position(equal).unwrap_or(any),
                false => any,
            };
            let shingle = of(&references[place]);
            let listed = shingle.map_or(1, |shingle| shingle.count.clamp(1, 31)) as u32;
            let any = random.between(1, 32) as u32;
            references[place].count = random.one_of(&[1, 32, listed, listed + 1, any]);
            mostly_right_form(body, known.list, random)
        }
        (Forgery::References, Body::Composition { references, .. }) => {
            other_references(references, known.list, random);
            mostly_right_form(body, known.list, random)
        }
        (Forgery::Order | Forgery::OtherForm | Forgery::Misplaced, Body::Composition { .. }) => {
            body
        }
        _ => composition(level, id, known.list, random),
    }
}

fn with_node(body: Body, level: u32, id: u64) -> Body {
    match body {
        Body::Composition {
            number, references, ..
        } => Body::Composition {
            level,
            id,
            number,
            references,
        },
        Body::Literal { bytes, .. } => Body::Literal { level, id, bytes },
        _ => Body::None { level, id },
    }
}

/// Bytes of any content, often as many as are left, or one more.
fn literal(level: u32, id: u64, rest: usize, random: &mut Random) -> Body {
    let any = random.by_size(0, rest as u64 + 2) as usize;
    let length = random.one_of(&[0, rest, rest, rest + 1, any, any]);
    let bytes = random.bytes(length);
    Body::Literal { level, id, bytes }
}

/// Nearly always rising by index, so that the questions after 10 are reached; else as they come.
fn mostly_rising(references: &mut Vec<Reference>, random: &mut Random) {
    if random.percent(95) {
        references.sort_by_key(|reference| reference.index);
        references.dedup_by_key(|reference| reference.index);
    }
}

/// Without a number where the pairs that are named have one trail, and with one where they have several, in most
/// cases, so that another condition alone may fail; else with the number that it has.
fn mostly_right_form(mut body: Body, list: &[Shingle], random: &mut Random) -> Body {
    if let Body::Composition {
        number, references, ..
    } = &mut body
    {
        let trails = named(references, list).map_or(0, |over| trails_from(0, &over));
        match trails {
            0 => {}
            _ if random.percent(15) => {}
            1 => *number = None,
            _ => *number = Some(number.unwrap_or(0)),
        }
    }
    body
}

/// One reference fewer or more, to another place of the list or past its end, or none.
fn other_references(references: &mut Vec<Reference>, list: &[Shingle], random: &mut Random) {
    let place = random.between(0, references.len() as u64) as usize;
    let any = random.between(0, 4_095.min(list.len() as u64)) as u32;
    let index = random.one_of(&[any, any, 0, 4_095]);
    match random.between(0, 3) {
        0 if place < references.len() => drop(references.remove(place)),
        1 if place < references.len() => references[place].index = index,
        2 => references.clear(),
        _ => references.insert(place, Reference { index, count: 1 }),
    }
    mostly_rising(references, random);
}

/// References to shingles of the list, of the right level more often than not, few or many.
fn composition(level: u32, id: u64, list: &[Shingle], random: &mut Random) -> Body {
    let right = random.percent(80);
    let below = u64::from(level) + 1;
    let places = (0..list.len().min(4_096)).filter(|&k| !right || list[k].level == below);
    let places: Vec<usize> = places.collect();
    let mut references: Vec<Reference> = Vec::new();
    let most = random.one_of(&[2, 12, 40]);
    for _ in 0..random.by_size(1, most) {
        if places.is_empty() {
            break;
        }
        let index = random.one_of(&places);
        let most = list[index].count.clamp(1, 32);
        references.push(Reference {
            index: index as u32,
            count: random.by_size(1, most) as u32,
        });
    }
    mostly_rising(&mut references, random);
    let number = random.one_of(&[None, None, Some(0), Some(1), Some(4_095), Some(4_096)]);
    let body = Body::Composition {
        level,
        id,
        number,
        references,
    };
    mostly_right_form(body, list, random)
}
