//! Compositions with a number word where none may stand, and right otherwise. A composition carries its trail
//! number after the id, or omits it (document 02, request 5): a second one, or one elsewhere, is met by 10.

use crate::random::Random;
use reference::message::{encode, parse, Body, Message};

/// Where number words stand.
#[derive(Clone, Copy, Debug, PartialEq, Eq, PartialOrd, Ord)]
pub enum Misplaced {
    /// The number twice, and then another one after it.
    Doubled,
    DoubledOther,
    /// After all references, in place of the right one or beside it.
    AfterReferences,
    InPlaceAndAfter,
    /// Between two references, in place of the right one or beside it.
    BetweenReferences,
    InPlaceAndBetween,
    /// Between the level and the id, and inside the id.
    BeforeTheId,
    InsideTheId,
}

/// All of them.
pub const MISPLACED: [Misplaced; 8] = [
    Misplaced::Doubled,
    Misplaced::DoubledOther,
    Misplaced::AfterReferences,
    Misplaced::InPlaceAndAfter,
    Misplaced::BetweenReferences,
    Misplaced::InPlaceAndBetween,
    Misplaced::BeforeTheId,
    Misplaced::InsideTheId,
];

/// The places of the first word of the id, and of the first after it.
const ID: usize = 2;
const AFTER_ID: usize = 5;

/// The numbers that are put in: the first and last of a trail, one too large, and the largest of a word.
const NUMBERS: [u32; 5] = [0, 1, 4_095, 4_096, (1 << 28) - 1];

/// How many references a composition has at least whose numbers can stand so.
fn least(misplaced: Misplaced) -> usize {
    match misplaced {
        Misplaced::AfterReferences => 1,
        Misplaced::BetweenReferences | Misplaced::InPlaceAndBetween => 2,
        _ => 0,
    }
}

/// A composition with its numbers so, the end set right; nothing of another message, or of one with too few
/// references.
pub fn misplaced(message: &[u8], misplaced: Misplaced, random: &mut Random) -> Option<Vec<u8>> {
    let message = parse(message)?;
    let Body::Composition {
        number, references, ..
    } = &message.body
    else {
        return None;
    };
    if references.len() < least(misplaced) {
        return None;
    }
    let number = number.unwrap_or_else(|| random.one_of(&NUMBERS));
    let places = places(misplaced, references.len(), random);
    let mut words = without_number(&message);
    for place in places {
        words.insert(place, 2 << 28 | number);
    }
    if misplaced == Misplaced::DoubledOther {
        words[AFTER_ID + 1] = 2 << 28 | (number + 1) % (1 << 28);
    }
    words.push(6 << 28 | (words.len() as u32 + 1));
    Some(words.iter().flat_map(|word| word.to_be_bytes()).collect())
}

/// Where number words are put into a composition of so many references that has none, one after the other.
fn places(misplaced: Misplaced, references: usize, random: &mut Random) -> Vec<usize> {
    let last = AFTER_ID + references;
    let mut between = || random.between(AFTER_ID as u64 + 1, last as u64 - 1) as usize;
    match misplaced {
        Misplaced::Doubled | Misplaced::DoubledOther => vec![AFTER_ID, AFTER_ID],
        Misplaced::AfterReferences => vec![last],
        Misplaced::InPlaceAndAfter => vec![last, AFTER_ID],
        Misplaced::BetweenReferences => vec![between()],
        Misplaced::InPlaceAndBetween => vec![between(), AFTER_ID],
        Misplaced::BeforeTheId => vec![ID],
        Misplaced::InsideTheId => vec![ID + random.between(1, 2) as usize],
    }
}

/// The words of a composition before its end, without its number.
fn without_number(message: &Message) -> Vec<u32> {
    let mut message = message.clone();
    if let Body::Composition { number, .. } = &mut message.body {
        *number = None;
    }
    let bytes = encode(&message);
    let word = |word: &[u8]| u32::from_be_bytes(word.try_into().expect("whole words"));
    let mut words: Vec<u32> = bytes.chunks(4).map(word).collect();
    words.pop();
    words
}

/// A composition in its other form: without the number that it carries, or with any that it omits. It is
/// well formed too. Nothing of another message.
pub fn in_other_form(message: &[u8], random: &mut Random) -> Option<Vec<u8>> {
    let mut message = parse(message)?;
    let Body::Composition { number, .. } = &mut message.body else {
        return None;
    };
    *number = match number {
        Some(_) => None,
        None => Some(random.one_of(&NUMBERS)),
    };
    Some(encode(&message))
}

/// A composition with its first number after the level, and no other, where a number stands; the end set right:
/// what a reader that is wrong on purpose makes of numbers that stand twice or elsewhere.
#[cfg(test)]
pub(crate) fn put_in_place(message: &[u8]) -> Vec<u8> {
    let word = |word: &[u8]| u32::from_be_bytes(word.try_into().expect("whole words"));
    let mut words: Vec<u32> = message.chunks_exact(4).map(word).collect();
    if words.len() <= AFTER_ID || words[0] >> 24 != 0x14 {
        return message.to_vec();
    }
    let mut rest = words.split_off(ID);
    let number = rest.iter().copied().find(|word| word >> 28 == 2);
    rest.retain(|word| word >> 28 != 2);
    let place = (AFTER_ID - ID).min(rest.len());
    rest.splice(place..place, number);
    words.extend(rest);
    let count = words.len() as u32;
    if let Some(last) = words.last_mut().filter(|last| **last >> 28 == 6) {
        *last = 6 << 28 | count;
    }
    words.iter().flat_map(|word| word.to_be_bytes()).collect()
}

#[cfg(test)]
mod tests {
    use super::{in_other_form, misplaced, put_in_place, MISPLACED};
    use crate::messages::valid::{message, SMALL};
    use crate::random::Random;
    use reference::message::{encode, parse};
    use std::collections::BTreeMap;

    /// How many words of each kind a message has.
    fn kinds(message: &[u8]) -> BTreeMap<u8, usize> {
        let mut kinds = BTreeMap::new();
        for word in message.chunks(4) {
            *kinds.entry(word[0] >> 4).or_default() += 1;
        }
        kinds
    }

    #[test]
    fn nothing_but_the_numbers_is_refused() {
        let mut random = Random::of_case(1, 1);
        let mut changed = BTreeMap::new();
        for _ in 0..500 {
            let whole = encode(&message(4, &SMALL, &mut random));
            for kind in MISPLACED {
                let Some(other) = misplaced(&whole, kind, &mut random) else {
                    continue;
                };
                assert_eq!(parse(&other), None, "{kind:?}");
                assert!(parse(&put_in_place(&other)).is_some(), "{kind:?}");
                *changed.entry(kind).or_insert(0) += 1;
                let (mut before, mut after) = (kinds(&whole), kinds(&other));
                assert!(before.remove(&2) <= after.remove(&2), "{kind:?}");
                assert_eq!(before, after, "{kind:?}");
            }
        }
        assert!(
            MISPLACED.iter().all(|kind| changed[kind] > 300),
            "{changed:?}"
        );
    }

    #[test]
    fn both_forms_are_read() {
        let mut random = Random::of_case(1, 2);
        let mut longer = 0;
        for _ in 0..500 {
            let whole = encode(&message(4, &SMALL, &mut random));
            let other = in_other_form(&whole, &mut random).expect("a composition");
            assert!(parse(&other).is_some());
            assert_eq!(put_in_place(&other), other);
            assert_eq!(other.len().abs_diff(whole.len()), 4);
            longer += usize::from(other.len() > whole.len());
        }
        assert!((100..400).contains(&longer), "{longer}");
    }
}
