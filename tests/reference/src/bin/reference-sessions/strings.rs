//! Settings, and pairs of strings: the sender's and the receiver's own.

use reference::random::Random;
use reference::settings::Settings;
use reference::tree::tree;
use reference::vectors::triangle;

/// How the receiver's string and the sender's differ.
#[derive(Clone, Copy, Debug, PartialEq, Eq, PartialOrd, Ord)]
pub enum Pair {
    Equal,
    OneEdit,
    ManyEdits,
    OneEmpty,
    BothEmpty,
    Unrelated,
    /// One is a block of the other's tree.
    BlockOfOther,
    /// Both made of the same few blocks, in other orders.
    SameBlocks,
}

/// What a string holds before it is edited.
#[derive(Clone, Copy, Debug, PartialEq, Eq)]
pub enum Content {
    Random,
    FewSymbols,
    Zeros,
    Samples,
    /// Samples, and a run of zeros to the end: "Recorders now preallocate channel files".
    Preallocated,
    Blocks,
}

const PAIRS: [Pair; 11] = [
    Pair::Equal,
    Pair::OneEdit,
    Pair::OneEdit,
    Pair::OneEdit,
    Pair::ManyEdits,
    Pair::OneEmpty,
    Pair::BothEmpty,
    Pair::Unrelated,
    Pair::BlockOfOther,
    Pair::SameBlocks,
    Pair::SameBlocks,
];

const CONTENTS: [Content; 6] = [
    Content::Random,
    Content::FewSymbols,
    Content::Zeros,
    Content::Samples,
    Content::Preallocated,
    Content::Blocks,
];

/// Any settings that are allowed, with a nominal length near the string's or any other, and a width
/// that is large more often than small.
pub fn settings(length: usize, random: &mut Random) -> (Settings, u64) {
    let fan_out = random.between(2, 8);
    let levels = random.one_of(&[1, 1, 2, 3, 4]);
    let least = fan_out.pow(levels as u32);
    let near = (length as u64).clamp(least, 65_536);
    let nominal = match random.between(0, 3) {
        0 => random.by_size(least, 65_536),
        1 => random.by_size(least, near),
        2 => random.between((near / 4).max(least), near),
        _ => least,
    };
    let width = match random.between(0, 3) {
        0 => random.by_size(1, 64),
        _ => random.between(33, 64),
    };
    let settings = Settings {
        window: random.between(2, 12),
        fan_out,
        levels,
        nominal,
    };
    (settings, width)
}

/// Settings and a length with which strings of few symbols have short blocks, few of them different:
/// then many orders have the same pairs, and trail numbers are high.
pub fn many_trails(random: &mut Random) -> (Settings, u64, usize) {
    let fan_out = random.between(2, 4);
    let levels = random.between(1, 2);
    let least = fan_out.pow(levels as u32);
    let settings = Settings {
        window: 2,
        fan_out,
        levels,
        nominal: random.between(least, 2 * least),
    };
    (settings, 64, random.between(60, 200) as usize)
}

/// A length: short strings more often than long ones.
pub fn length(random: &mut Random) -> usize {
    match random.between(0, 99) {
        0 => random.between(4_000, 65_536) as usize,
        1..=10 => random.by_size(0, 6_000) as usize,
        _ => random.by_size(0, 1_200) as usize,
    }
}

/// A string of any content.
pub fn string(length: usize, random: &mut Random) -> Vec<u8> {
    match random.one_of(&CONTENTS) {
        Content::Random => random.bytes(length),
        Content::FewSymbols => few_symbols(length, random),
        Content::Zeros => vec![0; length],
        Content::Samples => samples(length, random),
        Content::Preallocated => {
            let recorded = random.between(0, length as u64) as usize;
            let mut string = samples(recorded, random);
            string.resize(length, 0);
            string
        }
        Content::Blocks => {
            let blocks = blocks(length, random);
            of_blocks(&blocks, length, random)
        }
    }
}

/// Two symbols in any order.
pub fn few_symbols(length: usize, random: &mut Random) -> Vec<u8> {
    let symbols = random.bytes(2);
    (0..length).map(|_| random.one_of(&symbols)).collect()
}

/// Samples of 12 bits in two bytes, high byte first: a triangle wave with noise.
fn samples(length: usize, random: &mut Random) -> Vec<u8> {
    let speed = random.between(1, 40) as usize;
    let noise = random.one_of(&[0, 3, 15]);
    let first = random.between(0, 999) as usize;
    let sample = |k: usize| triangle(first + k * speed) as u16 + random.between(0, noise) as u16;
    let mut bytes: Vec<u8> = (0..length.div_ceil(2))
        .map(sample)
        .flat_map(u16::to_be_bytes)
        .collect();
    bytes.truncate(length);
    bytes
}

/// Two to four blocks, each far shorter than the string.
fn blocks(length: usize, random: &mut Random) -> Vec<Vec<u8>> {
    let most = (length as u64 / 8).max(2);
    let block = |random: &mut Random| {
        let length = random.by_size(1, most) as usize;
        random.bytes(length)
    };
    (0..random.between(2, 4)).map(|_| block(random)).collect()
}

fn of_blocks(blocks: &[Vec<u8>], length: usize, random: &mut Random) -> Vec<u8> {
    let mut bytes = Vec::new();
    while bytes.len() < length {
        bytes.extend(random.one_of(blocks));
    }
    bytes
}

/// A byte replaced, a stretch put in, taken out or moved.
pub fn edit(string: &mut Vec<u8>, random: &mut Random) {
    let start = random.between(0, string.len() as u64) as usize;
    let count = random.by_size(1, 40) as usize;
    let end = (start + count).min(string.len());
    match random.between(0, 3) {
        0 if start < string.len() => string[start] = string[start].wrapping_add(1),
        1 => drop(string.drain(start..end)),
        2 => {
            let moved: Vec<u8> = string.drain(start..end).collect();
            let place = random.between(0, string.len() as u64) as usize;
            string.splice(place..place, moved);
        }
        _ => {
            let added = random.bytes(count);
            string.splice(start..start, added);
        }
    }
}

/// The other string of a pair whose one is the base.
fn other(pair: Pair, settings: &Settings, base: &[u8], random: &mut Random) -> Vec<u8> {
    let mut other = base.to_vec();
    match pair {
        Pair::OneEdit => edit(&mut other, random),
        Pair::ManyEdits => (0..random.between(2, 12)).for_each(|_| edit(&mut other, random)),
        Pair::OneEmpty => other.clear(),
        Pair::Unrelated => other = string(base.len(), random),
        Pair::BlockOfOther => {
            let node = random.one_of(&tree(settings, base));
            other = base[node.start..node.start + node.length].to_vec();
        }
        Pair::Equal | Pair::BothEmpty | Pair::SameBlocks => {}
    }
    other
}

/// Two strings, the sender's first, each within 65,536 bytes.
pub fn pair(settings: &Settings, length: usize, random: &mut Random) -> (Pair, Vec<u8>, Vec<u8>) {
    let pair = random.one_of(&PAIRS);
    let (base, other) = match pair {
        Pair::BothEmpty => (Vec::new(), Vec::new()),
        Pair::SameBlocks => {
            let blocks = blocks(length, random);
            let base = of_blocks(&blocks, length, random);
            (base, of_blocks(&blocks, length, random))
        }
        _ => {
            let base = string(length, random);
            let other = other(pair, settings, &base, random);
            (base, other)
        }
    };
    let (mut sender, mut own) = match random.percent(50) {
        true => (base, other),
        false => (other, base),
    };
    sender.truncate(65_536);
    own.truncate(65_536);
    (pair, sender, own)
}
