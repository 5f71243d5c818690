//! Damaged and forged messages.

use crate::forms::OTHER_RULES;
use reference::lent::Lent;
use reference::message::{encode, parse, Body, Message, Opening};
use reference::random::Random;
use reference::shingle::Shingle;
use reference::sketch::sketch;
use reference::word::Reference;

/// A message with one to three of its words changed, dropped, added or exchanged, and its end set
/// right more often than not; or with bytes cut off or put on.
pub fn damaged(message: &[u8], random: &mut Random) -> Vec<u8> {
    let mut bytes = message.to_vec();
    if random.percent(10) {
        let length = random.between(0, message.len() as u64 + 9) as usize;
        bytes.resize(length, 0);
        return bytes;
    }
    let word = |bytes: &[u8]| u32::from_be_bytes(bytes.try_into().expect("whole words"));
    let mut words: Vec<u32> = bytes.chunks(4).map(word).collect();
    for _ in 0..random.one_of(&[1, 1, 2, 3]) {
        let place = random.place(words.len().min(16));
        match random.between(0, 5) {
            0 | 1 => words[place] ^= 1 << random.between(0, 31),
            2 => words[place] = random.one_of(&words) ^ random.between(0, 1) as u32,
            3 if words.len() > 2 => drop(words.remove(place)),
            4 => words.insert(place, random.one_of(&words)),
            _ => words.swap(place, 0),
        }
    }
    if random.percent(80) {
        let count = words.len() as u32;
        words[count as usize - 1] = 6 << 28 | count;
    }
    words.iter().flat_map(|word| word.to_be_bytes()).collect()
}

/// An opening with something else in one place.
pub fn opening(session: u32, own: &Opening, list: &[Shingle], random: &mut Random) -> Vec<u8> {
    let mut opening = own.clone();
    let ids: Vec<u64> = list.iter().map(|shingle| shingle.own).collect();
    match random.between(0, 9) {
        0 => opening.rule = random.one_of(&OTHER_RULES),
        1 => opening.levels += 1,
        2 => opening.nominal ^= 1,
        3 => opening.length = opening.length.wrapping_add(random.between(1, 3) as u32),
        4 => opening.length = random.one_of(&[0, 65_536, 65_537, (1 << 28) - 1]),
        5 => opening.root = random.number() >> random.one_of(&[0, 60, 63]),
        6 => opening.root = random.one_of(&ids),
        7 => {
            let place = random.place(opening.cells.len());
            opening.cells[place][random.place(5)] ^= 1 << random.between(0, 63);
        }
        _ => opening.cells = sketch(&other_list(list, random), u64::from(opening.width)),
    }
    let body = Body::Opening(opening);
    encode(&Message { session, body })
}

/// The list with a shingle of any kind added, one taken out, or a count changed.
fn other_list(list: &[Shingle], random: &mut Random) -> Vec<Shingle> {
    let mut other = list.to_vec();
    let place = random.place(list.len());
    let id = list[place].own;
    match random.between(0, 4) {
        0 => drop(other.remove(place)),
        1 => other[place].count = random.between(1, 4_096),
        _ => other.push(Shingle {
            level: random.between(0, 5),
            previous: random.one_of(&[0, id]),
            own: random.one_of(&[0, 1, id, list[0].own]),
            count: random.by_size(1, 4_097),
        }),
    }
    other
}

/// A node reply with anything in it, for a node of this level and id; `rest` is what the sender's
/// string has from the bytes built on.
pub fn node_reply(
    session: u32,
    (level, id): (u32, u64),
    genuine: &[u8],
    list: &[Shingle],
    rest: &[u8],
    random: &mut Random,
) -> Vec<u8> {
    if random.percent(10) {
        if let Some(falling) = not_rising(genuine, random) {
            return falling;
        }
    }
    let genuine = parse(genuine).expect("the reply is well formed").body;
    let body = match random.between(0, 6) {
        0 => Body::None { level, id },
        1 => literal(level, id, rest, random),
        2 => {
            let bytes = rest.to_vec();
            Body::Literal { level, id, bytes }
        }
        3 | 4 => changed(genuine, random),
        _ => composition(level, id, list, random),
    };
    encode(&Message { session, body })
}

/// A node reply with a byte, a reference or the number changed.
fn changed(mut body: Body, random: &mut Random) -> Body {
    match &mut body {
        Body::Literal { bytes, .. } => match bytes.is_empty() {
            true => bytes.push(0),
            false => bytes[0] ^= 1,
        },
        Body::Composition {
            references, number, ..
        } => {
            let place = random.place(references.len());
            match random.between(0, 2) {
                0 => references[place].count = random.between(1, 32) as u32,
                1 => drop(references.remove(place)),
                _ => *number = any_number(random),
            }
        }
        _ => {}
    }
    body
}

/// A trail number, or none.
fn any_number(random: &mut Random) -> Option<u32> {
    let number = random.by_size(0, 4_097) as u32;
    random.one_of(&[None, Some(0), Some(1), Some(number)])
}

/// A composition with references that do not rise: two exchanged, all in falling order, or one a
/// second time, perhaps with another count. Nothing of a message that has too few.
pub fn not_rising(message: &[u8], random: &mut Random) -> Option<Vec<u8>> {
    let mut message = parse(message).expect("the message is well formed");
    let Body::Composition { references, .. } = &mut message.body else {
        return None;
    };
    let last = references.len().checked_sub(1)?;
    let place = random.place(last + 1);
    match random.between(0, 3) {
        0 if last > 0 => {
            let other = (place + 1 + random.place(last)) % (last + 1);
            references.swap(place, other);
        }
        1 if last > 0 => references.reverse(),
        kind => {
            let mut again = references[place];
            if kind == 3 {
                again.count = again.count % 32 + 1;
            }
            references.insert(random.between(0, last as u64 + 1) as usize, again);
        }
    }
    Some(encode(&message))
}

/// Bytes of any content, often as many as are left.
fn literal(level: u32, id: u64, rest: &[u8], random: &mut Random) -> Body {
    let length = match random.between(0, 2) {
        0 => rest.len(),
        _ => random.by_size(0, rest.len() as u64 + 2) as usize,
    };
    let bytes = random.bytes(length);
    Body::Literal { level, id, bytes }
}

/// References to shingles of the list, of the right level more often than not. Nearly all rise by
/// index, so that they reach the questions after 10.
fn composition(level: u32, id: u64, list: &[Shingle], random: &mut Random) -> Body {
    let mut references: Vec<Reference> = Vec::new();
    let right = random.percent(80);
    let below = u64::from(level) + 1;
    let places = (0..list.len().min(4_096)).filter(|&k| !right || list[k].level == below);
    let places: Vec<usize> = places.collect();
    for _ in 0..random.by_size(1, 12) {
        if places.is_empty() {
            break;
        }
        let index = random.one_of(&places);
        let most = list[index].count.clamp(1, 32);
        references.push(Reference {
            index: index as u32,
            count: random.by_size(1, most.min(6)) as u32,
        });
    }
    if random.percent(95) {
        references.sort_by_key(|reference| reference.index);
        references.dedup_by_key(|reference| reference.index);
    }
    let number = random.one_of(&[None, None, Some(0), Some(1), Some(4_095), Some(4_096)]);
    Body::Composition {
        level,
        id,
        number,
        references,
    }
}

/// The id that no node has.
const ENDLESS: u64 = 0x1234_5678_9abc_def1;

/// An opening whose list has, at each level from 1 on, the pairs of 32 and more equal children.
pub fn endless_opening(own: &[u8], receiver: &Lent) -> Vec<u8> {
    let mut message = parse(own).expect("the opening is well formed");
    let Body::Opening(opening) = &mut message.body else {
        panic!("the message is an opening");
    };
    let mut list = receiver.shingle_list();
    for level in 1..=u64::from(opening.levels) {
        list.extend([0, ENDLESS].map(|previous| Shingle {
            level,
            previous,
            own: ENDLESS,
            count: 31,
        }));
    }
    opening.cells = sketch(&list, u64::from(opening.width));
    opening.root = ENDLESS;
    encode(&message)
}

/// 32 equal children; at level L no bytes.
pub fn endless_reply(query: &[u8], list: &[Shingle], levels: u64) -> Vec<u8> {
    let query = parse(query).expect("the query is well formed");
    let Body::NodeQuery { level, id } = query.body else {
        panic!("the query is a node's");
    };
    let below = u64::from(level) + 1;
    let reference = |previous: u64, count: u32| {
        let mut indexes = 0..list.len();
        let index = indexes.find(|&k| list[k].pair() == (below, previous, ENDLESS));
        Reference {
            index: index.expect("the pair is in the list") as u32,
            count,
        }
    };
    let body = match u64::from(level) < levels {
        true => Body::Composition {
            level,
            id,
            number: None,
            references: vec![reference(0, 1), reference(ENDLESS, 31)],
        },
        false => Body::Literal {
            level,
            id,
            bytes: Vec::new(),
        },
    };
    let session = query.session;
    encode(&Message { session, body })
}
