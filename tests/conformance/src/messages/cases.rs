//! The cases: messages and what is left of them, each made from the seed and the case's number
//! alone.

use super::damage::{damaged, Damage};
use super::numbers::{in_other_form, misplaced, Misplaced, MISPLACED};
use super::order::{disordered, Disorder, DISORDERS};
use super::valid::{message, Sizes, LARGE, MEGABYTE, SMALL};
use crate::failure::first_bytes;
use crate::random::{family_of, together, Random};
use reference::message::encode;
use std::fmt;

/// One call.
pub struct Case {
    pub seed: u64,
    pub number: usize,
    pub family: Family,
    pub message: Vec<u8>,
    /// How far the message is moved in memory, so that most of them are not aligned.
    pub shift: usize,
}

impl fmt::Display for Case {
    fn fmt(&self, f: &mut fmt::Formatter) -> fmt::Result {
        let bytes = first_bytes(&self.message, 96);
        write!(f, "{:?}, {} bytes:{bytes}", self.family, self.message.len())
    }
}

/// What the message of a case is.
#[derive(Clone, Copy, Debug, PartialEq, Eq, PartialOrd, Ord)]
pub enum Family {
    /// Well formed, of each type, and small.
    Valid,
    /// The words of one type under the head of another, or of no type.
    Retyped,
    /// A composition in both forms, with its number and without it.
    BothForms,
    /// Small, with one kind of damage.
    Damaged(Damage),
    /// Small, with damage of two kinds.
    DamagedTwice,
    /// A head, words of any kinds, and an end that is right.
    AnyWords,
    /// Any bytes, few or none.
    AnyBytes,
    /// An opening of few cells, with a q that is right modulo a power of two only.
    WrappedWidth,
    /// All 4,096 references, with a number and without it; some with one more, or with two of them
    /// exchanged.
    AllReferences,
    /// As large as both ends exchange them, well formed or with damage.
    Large,
    /// About a megabyte, well formed or with damage.
    Megabyte,
}

/// The kinds of damage that any message can have.
const DAMAGES: [Damage; 9] = [
    Damage::Bits,
    Damage::Bytes,
    Damage::Words,
    Damage::Edges,
    Damage::Dropped,
    Damage::Repeated,
    Damage::Swapped,
    Damage::Cut,
    Damage::Lengthened,
];

/// The families, and how many cases each has.
const FAMILIES: [(Family, usize); 33] = [
    (Family::Valid, 24_000),
    (Family::Retyped, 6 * 16 * 20),
    (Family::BothForms, 4_000),
    (Family::Damaged(Damage::Edges), 36_000),
    (Family::Damaged(Damage::Bits), 24_000),
    (Family::Damaged(Damage::Bytes), 18_000),
    (Family::Damaged(Damage::Words), 18_000),
    (Family::Damaged(Damage::Dropped), 18_000),
    (Family::Damaged(Damage::Repeated), 18_000),
    (Family::Damaged(Damage::Swapped), 12_000),
    (Family::Damaged(Damage::Cut), 9_000),
    (Family::Damaged(Damage::Lengthened), 9_000),
    (Family::Damaged(Damage::Order(Disorder::Neighbours)), 3_000),
    (Family::Damaged(Damage::Order(Disorder::Apart)), 3_000),
    (Family::Damaged(Damage::Order(Disorder::Doubled)), 3_000),
    (
        Family::Damaged(Damage::Order(Disorder::DoubledOtherCount)),
        3_000,
    ),
    (Family::Damaged(Damage::Order(Disorder::Reversed)), 3_000),
    (Family::Damaged(Damage::Order(Disorder::Lowered)), 3_000),
    (Family::Damaged(Damage::Numbers(Misplaced::Doubled)), 1_500),
    (
        Family::Damaged(Damage::Numbers(Misplaced::DoubledOther)),
        1_500,
    ),
    (
        Family::Damaged(Damage::Numbers(Misplaced::AfterReferences)),
        1_500,
    ),
    (
        Family::Damaged(Damage::Numbers(Misplaced::InPlaceAndAfter)),
        1_500,
    ),
    (
        Family::Damaged(Damage::Numbers(Misplaced::BetweenReferences)),
        1_500,
    ),
    (
        Family::Damaged(Damage::Numbers(Misplaced::InPlaceAndBetween)),
        1_500,
    ),
    (
        Family::Damaged(Damage::Numbers(Misplaced::BeforeTheId)),
        750,
    ),
    (
        Family::Damaged(Damage::Numbers(Misplaced::InsideTheId)),
        750,
    ),
    (Family::DamagedTwice, 12_000),
    (Family::AnyWords, 12_000),
    (Family::AnyBytes, 2_000),
    (Family::WrappedWidth, 400),
    (Family::AllReferences, 60),
    (Family::Large, 1_200),
    (Family::Megabyte, 240),
];

/// All families.
pub fn families() -> impl Iterator<Item = Family> {
    FAMILIES.iter().map(|&(family, _)| family)
}

/// How many cases a run has.
pub fn count() -> usize {
    together(FAMILIES)
}

/// The case of this number.
pub fn case(seed: u64, number: usize) -> Case {
    let (family, place) = family_of(FAMILIES, number);
    let mut random = Random::of_case(seed, number);
    Case {
        seed,
        number,
        family,
        message: family_message(family, place, &mut random),
        shift: random.between(0, 15) as usize,
    }
}

fn family_message(family: Family, place: usize, random: &mut Random) -> Vec<u8> {
    match family {
        Family::Valid => valid(place, &SMALL, random),
        Family::Retyped => {
            let mut bytes = valid(place, &SMALL, random);
            bytes[0] = 0x10 | (place / 6 % 16) as u8;
            bytes
        }
        Family::BothForms => both_forms(place, random),
        Family::Damaged(Damage::Order(disorder)) => not_rising(disorder, random),
        Family::Damaged(Damage::Numbers(kind)) => with_misplaced(kind, random),
        Family::Damaged(damage) => damaged(&valid(place, &SMALL, random), damage, random),
        Family::DamagedTwice => {
            let once = damaged(&valid(place, &SMALL, random), whole_words(random), random);
            let damage = random.one_of(&DAMAGES);
            match once.len() {
                0 => once,
                _ => damaged(&once, damage, random),
            }
        }
        Family::AnyWords => any_words(random),
        Family::AnyBytes => {
            let length = random.between(0, 100) as usize;
            random.bytes(length)
        }
        Family::WrappedWidth => wrapped_width(random),
        Family::AllReferences => all_references(place, random),
        Family::Large => valid_or_damaged(place, &LARGE, random),
        Family::Megabyte => valid_or_damaged(place, &MEGABYTE, random),
    }
}

/// The bytes of a well-formed message; the types in turn.
fn valid(place: usize, sizes: &Sizes, random: &mut Random) -> Vec<u8> {
    encode(&message(1 + place as u32 % 6, sizes, random))
}

/// A composition that is right but for the order of its references.
fn not_rising(disorder: Disorder, random: &mut Random) -> Vec<u8> {
    loop {
        let whole = encode(&message(4, &SMALL, random));
        if let Some(changed) = disordered(&whole, disorder, random) {
            return changed;
        }
    }
}

/// A composition that is right but for its number words.
fn with_misplaced(kind: Misplaced, random: &mut Random) -> Vec<u8> {
    loop {
        let whole = encode(&message(4, &SMALL, random));
        if let Some(changed) = misplaced(&whole, kind, random) {
            return changed;
        }
    }
}

/// A composition, and in its other form the next time.
fn both_forms(place: usize, random: &mut Random) -> Vec<u8> {
    let whole = encode(&message(4, &SMALL, random));
    match place % 2 {
        0 => whole,
        _ => in_other_form(&whole, random).expect("a composition"),
    }
}

/// A well-formed message of a type that grows; two of three with damage, a composition's of its order or of
/// its numbers in one of them.
fn valid_or_damaged(place: usize, sizes: &Sizes, random: &mut Random) -> Vec<u8> {
    let message_type = 3 + place as u32 % 3;
    let whole = encode(&message(message_type, sizes, random));
    let damage = match (place / 3 % 3, message_type) {
        (0, _) => return whole,
        (1, 4) if random.percent(50) => Damage::Numbers(random.one_of(&MISPLACED)),
        (1, 4) => Damage::Order(random.one_of(&DISORDERS)),
        _ => random.one_of(&DAMAGES),
    };
    damaged(&whole, damage, random)
}

/// A kind of damage that leaves whole words.
fn whole_words(random: &mut Random) -> Damage {
    random.one_of(&DAMAGES[..7])
}

fn bytes(words: &[u32]) -> Vec<u8> {
    words.iter().flat_map(|word| word.to_be_bytes()).collect()
}

/// Words whose kinds are those of the type, or nearly.
fn any_words(random: &mut Random) -> Vec<u8> {
    let message_type = random.between(0, 7) as u32;
    let mut words = vec![1 << 28 | message_type << 24 | 5];
    let node = [2, 3, 3, 3];
    let kinds: Vec<u32> = match message_type {
        3 => [[2; 7].as_slice(), &[3; 3]].concat(),
        4 if random.percent(50) => [node.as_slice(), &[2]].concat(),
        4 => node.to_vec(),
        2 | 5 | 6 => node.to_vec(),
        _ => vec![],
    };
    let more = random.one_of(&[2, 3, 4, 5]);
    let count = random.by_size(0, 50) as usize;
    let first = words.len() + kinds.len();
    for kind in kinds.into_iter().chain(vec![more; count]) {
        let kind = if random.between(0, 40) == 0 {
            random.between(1, 6) as u32
        } else {
            kind
        };
        words.push(kind << 28 | likely_rest(kind, random));
    }
    // Most references rise.
    if more == 4 && random.percent(75) {
        words[first..].sort();
    }
    words.push(6 << 28 | (words.len() as u32 + 1));
    bytes(&words)
}

/// The 28 bits of a word that is mostly right for its kind.
fn likely_rest(kind: u32, random: &mut Random) -> u32 {
    let bits = random.number() as u32 >> 4;
    let reference = (bits % 4_096) << 6 | random.between(1, 32) as u32;
    match kind {
        2 => random.by_size(0, 70_000) as u32,
        3 => bits >> random.one_of(&[0, 20, 20, 19]),
        4 => reference,
        5 => (3 << 24) + bits % (1 << 24),
        _ => bits,
    }
}

/// An opening of few cells, whose q is theirs modulo a power of two only.
fn wrapped_width(random: &mut Random) -> Vec<u8> {
    let bits = random.between(8, 27);
    let few = random.between(0, 4);
    let width = few + (random.between(1, (1 << (28 - bits)) - 1) << bits);
    let mut words = vec![0x1300_0005];
    words.extend([1, 2, 2, 1, 2, width as u32, 6].map(|number| 2 << 28 | number));
    words.extend(vec![3 << 28; 3 + 45 * few as usize]);
    words.push(6 << 28 | (words.len() as u32 + 1));
    bytes(&words)
}

/// Every index once, rising; in a third of the cases one index once more, and in a third two exchanged. Every
/// other one omits the number.
fn all_references(place: usize, random: &mut Random) -> Vec<u8> {
    let mut words = vec![0x1400_0005, 2 << 28, 3 << 28, 3 << 28, 3 << 28];
    if place / 3 % 2 == 0 {
        words.push(2 << 28);
    }
    let mut indexes: Vec<u32> = (0..4_096).collect();
    let one = random.one_of(&[0, 1, 63, 64, 2_048, 4_094, 4_095]);
    let other = random.between(0, 4_096) as usize;
    match place % 3 {
        0 => {}
        1 => indexes.insert(random.one_of(&[one as usize, other]), one),
        _ => indexes.swap(one as usize, (one as usize + 1 + other % 4_095) % 4_096),
    }
    words.extend(indexes.iter().map(|index| 4 << 28 | index << 6 | 1));
    words.push(6 << 28 | (words.len() as u32 + 1));
    bytes(&words)
}
