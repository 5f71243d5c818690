//! What the strings of the cases hold.

use crate::random::Random;
use reference::vectors::{ruler, triangle, HASHES_TO_ZERO};

/// A kind of content.
#[derive(Clone, Copy, Debug, PartialEq, Eq)]
pub enum Content {
    Random,
    Zeros,
    AllEqual,
    FewSymbols,
    RisingRamp,
    FallingRamp,
    Samples,
    /// Samples, and zeros after them: "Recorders now preallocate channel files".
    Preallocated,
    /// Runs of equal bytes, with others between them.
    Runs,
    /// Marks at steps of several lengths: many cuts, and few different blocks.
    Ruler,
    Repeats,
    Edited,
    /// Eight bytes whose FNV-1a is 0, once or several times.
    HashesToZero,
    /// Any bytes, and one value again and again among them.
    OneOften,
}

/// All kinds, in the order of their declaration.
pub const KINDS: [Content; 14] = [
    Content::Random,
    Content::Zeros,
    Content::AllEqual,
    Content::FewSymbols,
    Content::RisingRamp,
    Content::FallingRamp,
    Content::Samples,
    Content::Preallocated,
    Content::Runs,
    Content::Ruler,
    Content::Repeats,
    Content::Edited,
    Content::HashesToZero,
    Content::OneOften,
];

/// A string of this content and length.
pub fn string(content: Content, length: usize, random: &mut Random) -> Vec<u8> {
    match content {
        Content::Random => random.bytes(length),
        Content::Zeros => vec![0; length],
        Content::AllEqual => vec![random.between(1, 255) as u8; length],
        Content::FewSymbols => few_symbols(length, random),
        Content::RisingRamp => ramp(length, random, false),
        Content::FallingRamp => ramp(length, random, true),
        Content::Samples => samples(length, random),
        Content::Preallocated => {
            let mut bytes = samples(random.between(0, length as u64) as usize, random);
            bytes.resize(length, 0);
            bytes
        }
        Content::Runs => runs(length, random),
        Content::Ruler => ruler(length),
        Content::Repeats => repeats(length, random),
        Content::Edited => edited(length, random),
        Content::HashesToZero => HASHES_TO_ZERO
            .iter()
            .copied()
            .cycle()
            .take(length)
            .collect(),
        Content::OneOften => often(random.number() as u8, length, random),
    }
}

/// Any bytes, and this one at every second to fifth place.
pub fn often(byte: u8, length: usize, random: &mut Random) -> Vec<u8> {
    let mut bytes = random.bytes(length);
    let mut place = random.between(0, 4) as usize;
    while let Some(replaced) = bytes.get_mut(place) {
        *replaced = byte;
        place += random.between(2, 5) as usize;
    }
    bytes
}

fn few_symbols(length: usize, random: &mut Random) -> Vec<u8> {
    let count = random.between(2, 5) as usize;
    let symbols = random.bytes(count);
    (0..length).map(|_| random.one_of(&symbols)).collect()
}

/// Each byte held for some places, then one step up or down.
fn ramp(length: usize, random: &mut Random, falling: bool) -> Vec<u8> {
    let held = random.by_size(1, 64) as usize;
    let first = random.number() as u8;
    let byte = |i: usize| {
        let steps = (i / held) as u8;
        if falling {
            first.wrapping_sub(steps)
        } else {
            first.wrapping_add(steps)
        }
    };
    (0..length).map(byte).collect()
}

/// Samples of 12 bits in two bytes, high byte first: a triangle wave with noise of some bits.
fn samples(length: usize, random: &mut Random) -> Vec<u8> {
    let speed = random.between(1, 40) as usize;
    let noise = random.one_of(&[0, 3, 15, 63]);
    let mut bytes = Vec::with_capacity(length + 2);
    let mut k = random.between(0, 999) as usize;
    while bytes.len() < length {
        let sample = triangle(k) as u16 + random.between(0, noise) as u16;
        bytes.extend(sample.to_be_bytes());
        k += speed;
    }
    bytes.truncate(length);
    bytes
}

/// A run of one byte, zero more often than others, by turns with bytes of few values or of any.
fn runs(length: usize, random: &mut Random) -> Vec<u8> {
    let any = random.number() as u8;
    let byte = random.one_of(&[0, 0, any]);
    let longest = random.by_size(1, 400);
    let mut bytes = Vec::with_capacity(length);
    while bytes.len() < length {
        let [others, run] = [0; 2].map(|_: u8| random.by_size(0, longest) as usize);
        bytes.extend(beside(others, byte, random));
        bytes.resize(bytes.len() + run, byte);
    }
    bytes.truncate(length);
    bytes
}

/// Bytes beside a run of one byte: any, or two values of which one is the run's.
pub fn beside(length: usize, byte: u8, random: &mut Random) -> Vec<u8> {
    let other = random.number() as u8;
    match random.between(0, 1) {
        0 => random.bytes(length),
        _ => (0..length).map(|_| random.one_of(&[byte, other])).collect(),
    }
}

fn repeats(length: usize, random: &mut Random) -> Vec<u8> {
    let period = random.by_size(2, 300) as usize;
    let block = random.bytes(period);
    (0..length).map(|i| block[i % period]).collect()
}

/// A string of another kind with some bytes replaced, and a few taken from one place to another.
fn edited(length: usize, random: &mut Random) -> Vec<u8> {
    let base = random.one_of(&[
        Content::Zeros,
        Content::AllEqual,
        Content::Samples,
        Content::Preallocated,
        Content::Ruler,
        Content::Repeats,
    ]);
    let mut bytes = string(base, length, random);
    if length == 0 {
        return bytes;
    }
    let place = |random: &mut Random| random.between(0, length as u64 - 1) as usize;
    for _ in 0..random.between(1, 6) {
        let replaced = place(random);
        bytes[replaced] = random.number() as u8;
    }
    for _ in 0..random.between(0, 2) {
        let taken = bytes.remove(place(random));
        bytes.insert(place(random), taken);
    }
    bytes
}
