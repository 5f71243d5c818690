//! Messages that are well formed, of every type and size.

use crate::random::Random;
use reference::message::{Body, Message, Opening};
use reference::word::Reference;

/// How large a message may be.
#[derive(Clone, Copy)]
pub struct Sizes {
    /// q of an opening.
    pub width: u64,
    /// References of a composition, at most 4,096.
    pub references: u64,
    /// Bytes of a literal.
    pub bytes: u64,
}

/// Most messages, so that a change of a word meets every part of them.
pub const SMALL: Sizes = Sizes {
    width: 3,
    references: 40,
    bytes: 60,
};

/// Messages as large as both ends exchange them.
pub const LARGE: Sizes = Sizes {
    width: 64,
    references: 4_096,
    bytes: 65_536,
};

/// Messages of up to about a megabyte.
pub const MEGABYTE: Sizes = Sizes {
    width: 5_825,
    references: 4_096,
    bytes: 786_000,
};

/// A well-formed message of a type from 1 to 6.
pub fn message(message_type: u32, sizes: &Sizes, random: &mut Random) -> Message {
    let any_session = random.number() as u32 >> 8;
    let session = random.one_of(&[0, 5, (1 << 24) - 1, any_session, any_session]);
    let level = number(4, random);
    let id = value(random);
    let body = match message_type {
        1 => Body::OpeningQuery,
        2 => Body::NodeQuery { level, id },
        3 => Body::Opening(opening(size(sizes.width, random), random)),
        4 => Body::Composition {
            level,
            id,
            // "Writing and reading a message must still agree for both lengths." (document 02, request 5)
            number: random.percent(50).then(|| number(4_095, random)),
            references: references(size(sizes.references, random), random),
        },
        5 => Body::Literal {
            level,
            id,
            bytes: literal(size(sizes.bytes, random), random),
        },
        6 => Body::None { level, id },
        _ => panic!("types are 1 to 6"),
    };
    Message { session, body }
}

/// Any size up to the largest: that itself, small ones as likely as large ones, or any.
fn size(most: u64, random: &mut Random) -> u64 {
    match random.between(0, 9) {
        0..=1 => most,
        2..=4 => random.by_size(0, most),
        _ => random.between(0, most),
    }
}

/// A number of 28 bits: mostly a usual one, else a neighbour of those, or any.
fn number(usual: u64, random: &mut Random) -> u32 {
    let largest = (1 << 28) - 1;
    match random.between(0, 9) {
        0 => largest,
        1 => random.by_size(0, u64::from(largest)) as u32,
        _ => random.between(0, usual + 1) as u32,
    }
}

/// A value of 64 bits, with many zeros, many ones, or any.
fn value(random: &mut Random) -> u64 {
    match random.between(0, 7) {
        0 => 0,
        1 => u64::MAX,
        2 => random.by_size(0, u64::MAX),
        _ => random.number(),
    }
}

fn opening(width: u64, random: &mut Random) -> Opening {
    let rule = random.one_of(&[3, 3, 3, 0, 1, 2, 4, (1 << 28) - 1]);
    Opening {
        rule,
        window: number(12, random),
        fan_out: number(8, random),
        levels: number(4, random),
        nominal: number(65_536, random),
        width: width as u32,
        length: number(65_536, random),
        root: value(random),
        cells: (0..3 * width)
            .map(|_| [(); 5].map(|_| value(random)))
            .collect(),
    }
}

/// References to different places of the list: the first ones, the last ones, a run of any others, or any.
/// "References now rise by index" (document 02, request 2).
fn references(count: u64, random: &mut Random) -> Vec<Reference> {
    let mut indexes: Vec<u32> = (0..4_096).collect();
    match random.between(0, 4) {
        0 => {}
        1 => indexes.rotate_right(count as usize),
        2 => indexes.rotate_left(random.between(0, 4_096 - count) as usize),
        _ => {
            for k in 0..count {
                indexes.swap(k as usize, random.between(k, 4_095) as usize);
            }
        }
    }
    indexes.truncate(count as usize);
    indexes.sort();
    let most = random.one_of(&[1, 4, 32]);
    let reference = |index: u32| Reference {
        index,
        count: random.between(1, most) as u32,
    };
    indexes.into_iter().map(reference).collect()
}

/// Bytes, all kinds or many zeros.
fn literal(length: u64, random: &mut Random) -> Vec<u8> {
    match random.between(0, 3) {
        0 => vec![0; length as usize],
        _ => random.bytes(length as usize),
    }
}
