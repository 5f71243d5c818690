//! What becomes of a message on the way: bits, bytes and words changed, words dropped, repeated,
//! swapped, cut and lengthened; references that do not rise, and numbers where none may stand.
//!
//! A message that changes its length is refused by its end alone, so that the end is set right
//! again after some of these.

use super::numbers::{misplaced, Misplaced};
use super::order::{disordered, Disorder};
use crate::random::Random;

/// A kind of damage.
#[derive(Clone, Copy, Debug, PartialEq, Eq, PartialOrd, Ord)]
pub enum Damage {
    /// One to three bits turned.
    Bits,
    /// One to three bytes replaced.
    Bytes,
    /// One to three words replaced: by any word, or by one of the message's own.
    Words,
    /// One to three words with a number at the end of its range, or just past it.
    Edges,
    /// One to three stretches of words taken out.
    Dropped,
    /// One to three stretches of words put in a second time.
    Repeated,
    /// One to three times two words exchanged.
    Swapped,
    /// Bytes or words cut off at the end; then perhaps an end put on.
    Cut,
    /// Bytes or words put on at the end, or before the last word.
    Lengthened,
    /// The references of a composition in another order, or one of them twice; nothing else.
    Order(Disorder),
    /// A number word of a composition twice, or in another place; nothing else.
    Numbers(Misplaced),
}

/// The lengths of stretches: a word, a value, a cell, the cells of one more q, and others.
const STRETCHES: [usize; 9] = [1, 1, 2, 3, 4, 15, 30, 44, 45];

/// The message with this damage.
pub fn damaged(message: &[u8], damage: Damage, random: &mut Random) -> Vec<u8> {
    match damage {
        Damage::Bits | Damage::Bytes => bytes_changed(message, damage, random),
        Damage::Order(disorder) => {
            disordered(message, disorder, random).unwrap_or_else(|| message.to_vec())
        }
        Damage::Numbers(kind) => {
            misplaced(message, kind, random).unwrap_or_else(|| message.to_vec())
        }
        Damage::Cut | Damage::Lengthened if random.between(0, 1) == 0 => {
            bytes_more_or_fewer(message, damage, random)
        }
        _ => {
            let bits = |word: &[u8]| u32::from_be_bytes(word.try_into().expect("whole words"));
            let mut words: Vec<u32> = message.chunks(4).map(bits).collect();
            words_changed(&mut words, damage, random);
            if random.between(0, 3) > 0 {
                set_end_right(&mut words);
            }
            words.iter().flat_map(|word| word.to_be_bytes()).collect()
        }
    }
}

/// Puts the true count into the last word, if that is an end.
fn set_end_right(words: &mut [u32]) {
    let count = words.len() as u32;
    if let Some(last) = words.last_mut().filter(|last| **last >> 28 == 6) {
        *last = 6 << 28 | count;
    }
}

/// A place below `count`: the first or last ones as likely as all others.
fn place(count: usize, random: &mut Random) -> usize {
    let last = count as u64 - 1;
    match random.between(0, 3) {
        0 => random.between(0, last.min(11)) as usize,
        1 => (last - random.between(0, last.min(3))) as usize,
        _ => random.between(0, last) as usize,
    }
}

fn bytes_changed(message: &[u8], damage: Damage, random: &mut Random) -> Vec<u8> {
    let mut bytes = message.to_vec();
    for _ in 0..random.between(1, 3) {
        let changed = place(bytes.len(), random);
        match damage {
            Damage::Bits => bytes[changed] ^= 1 << random.between(0, 7),
            _ => bytes[changed] = random.number() as u8,
        }
    }
    bytes
}

fn bytes_more_or_fewer(message: &[u8], damage: Damage, random: &mut Random) -> Vec<u8> {
    let mut bytes = message.to_vec();
    let count = random.between(1, 9) as usize;
    match damage {
        Damage::Cut => bytes.truncate(bytes.len().saturating_sub(count)),
        _ => bytes.resize(bytes.len() + count, random.one_of(&[0, 0x60, 0xff])),
    }
    bytes
}

/// A stretch of words: its start and its end.
fn stretch(words: &[u32], random: &mut Random) -> (usize, usize) {
    let start = place(words.len(), random);
    let length = random.one_of(&STRETCHES);
    (start, (start + length).min(words.len()))
}

fn words_changed(words: &mut Vec<u32>, damage: Damage, random: &mut Random) {
    for _ in 0..random.one_of(&[1, 1, 2, 3]) {
        if words.is_empty() {
            return;
        }
        match damage {
            Damage::Words => {
                let replaced = place(words.len(), random);
                words[replaced] = any_word(words, random);
            }
            Damage::Edges => {
                let changed = place(words.len(), random);
                words[changed] = edge_word(words, changed, random);
            }
            Damage::Dropped => {
                let (start, end) = stretch(words, random);
                words.drain(start..end);
            }
            Damage::Repeated => {
                let (start, end) = stretch(words, random);
                let again = words[start..end].to_vec();
                words.splice(start..start, again);
            }
            Damage::Swapped => {
                let (one, other) = (place(words.len(), random), place(words.len(), random));
                words.swap(one, other);
            }
            Damage::Cut => {
                words.truncate(place(words.len(), random));
                words.extend(random.one_of(&[None, Some(6 << 28)]));
            }
            _ => {
                let before_end = random.between(0, 1) as usize;
                let added = any_word(words, random);
                words.insert(words.len() - before_end, added);
            }
        }
    }
}

/// Any word; one of a kind from 0 to 7; or one that stands elsewhere in the message.
fn any_word(words: &[u32], random: &mut Random) -> u32 {
    let bits = random.number() as u32;
    match random.between(0, 3) {
        0 => bits,
        1 => bits >> 1,
        2 => random.one_of(&[1, 2, 3, 4, 5, 6]) << 28 | random.by_size(0, (1 << 28) - 1) as u32,
        _ => random.one_of(words),
    }
}

/// The word of this place with one of its numbers at the end of its range, or past it.
fn edge_word(words: &[u32], place: usize, random: &mut Random) -> u32 {
    let word = words[place];
    let (kind, rest) = (word >> 28, word % (1 << 28));
    let count = words.len() as u32;
    let largest = (1 << 28) - 1;
    let edge = match kind {
        1 => random.between(0, 15) as u32 * (1 << 24) + rest % (1 << 24),
        2 => random.one_of(&[0, rest ^ 1, rest + 1, rest.wrapping_sub(1), 4_096, largest]),
        3 => random.one_of(&[0, 255, 256, 511, 65_535, rest | 256, rest << 8, largest]),
        4 => edge_reference(words, rest, random),
        5 => edge_bytes(rest, random),
        _ => random.one_of(&[0, 1, count - 1, count + 1, count + 65_536, largest]),
    };
    (kind << 28) + edge % (1 << 28)
}

/// A reference with another count, an index that stands elsewhere, or one of its zero bits set.
fn edge_reference(words: &[u32], rest: u32, random: &mut Random) -> u32 {
    let with_count = |count: u32| rest / 64 * 64 + count;
    let references: Vec<u32> = words
        .iter()
        .copied()
        .filter(|word| word >> 28 == 4)
        .collect();
    match random.between(0, 3) {
        0 => with_count(random.one_of(&[0, 1, 32, 33, 63])),
        1 => random.one_of(&references) / 64 % 4_096 * 64 + rest % 64,
        2 => rest ^ 1 << random.between(6, 17),
        _ => rest | 1 << random.between(18, 27),
    }
}

/// Bytes with another number of them, one of the zero bits set, or bytes that are 0.
fn edge_bytes(rest: u32, random: &mut Random) -> u32 {
    let three = rest % (1 << 24);
    let how_many = random.between(0, 3) as u32;
    match random.between(0, 3) {
        0 => how_many << 24 | three,
        1 => how_many << 24 | three >> (24 - 8 * how_many) << (24 - 8 * how_many),
        2 => rest | 1 << random.between(26, 27),
        _ => (rest - three) + (three & random.one_of(&[0, 0xff_0000, 0xff_ff00, 0xff])),
    }
}
