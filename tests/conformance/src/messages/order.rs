//! Compositions whose references do not rise, and which are right otherwise. "References now rise by index"
//! (document 02, request 2); "each index once" (document 01) stays, and counts do not matter.

use crate::random::Random;
use reference::message::{encode, parse, Body};
use reference::word::Reference;

/// How references come not to rise.
#[derive(Clone, Copy, Debug, PartialEq, Eq, PartialOrd, Ord)]
pub enum Disorder {
    /// Two neighbours exchanged.
    Neighbours,
    /// Two exchanged that have others between them.
    Apart,
    /// One put in a second time, beside itself or anywhere.
    Doubled,
    /// The same, with another count.
    DoubledOtherCount,
    /// All from the last to the first.
    Reversed,
    /// One with the index of the one before it.
    Lowered,
}

/// All of them.
pub const DISORDERS: [Disorder; 6] = [
    Disorder::Neighbours,
    Disorder::Apart,
    Disorder::Doubled,
    Disorder::DoubledOtherCount,
    Disorder::Reversed,
    Disorder::Lowered,
];

/// How many references a composition has at least that can be in such disorder.
fn least(disorder: Disorder) -> usize {
    match disorder {
        Disorder::Doubled | Disorder::DoubledOtherCount => 1,
        Disorder::Neighbours | Disorder::Reversed | Disorder::Lowered => 2,
        Disorder::Apart => 3,
    }
}

/// A composition with its references in such disorder, the end set right; nothing of another message, or of
/// one with too few references.
pub fn disordered(message: &[u8], disorder: Disorder, random: &mut Random) -> Option<Vec<u8>> {
    let mut message = parse(message)?;
    match &mut message.body {
        Body::Composition { references, .. } if references.len() >= least(disorder) => {
            disorder_references(references, disorder, random);
        }
        _ => return None,
    }
    Some(encode(&message))
}

/// A composition with its references in any disorder that it can be in, and which; nothing of one without
/// references, or of another message.
pub fn in_any_disorder(message: &[u8], random: &mut Random) -> Option<(Disorder, Vec<u8>)> {
    let mut disorders = DISORDERS;
    disorders.rotate_left(random.between(0, 5) as usize);
    disorders
        .into_iter()
        .find_map(|disorder| Some((disorder, disordered(message, disorder, random)?)))
}

fn disorder_references(references: &mut Vec<Reference>, disorder: Disorder, random: &mut Random) {
    let last = references.len() - 1;
    let mut place = |from: usize, to: usize| random.between(from as u64, to as u64) as usize;
    match disorder {
        Disorder::Neighbours => {
            let second = place(1, last);
            references.swap(second - 1, second);
        }
        Disorder::Apart => {
            let first = place(0, last - 2);
            references.swap(first, place(first + 2, last));
        }
        Disorder::Doubled | Disorder::DoubledOtherCount => {
            let one = place(0, last);
            let mut again = references[one];
            if disorder == Disorder::DoubledOtherCount {
                again.count = (again.count - 1 + place(1, 31) as u32) % 32 + 1;
            }
            let at = match place(0, 1) {
                0 => one + 1,
                _ => place(0, last + 1),
            };
            references.insert(at, again);
        }
        Disorder::Reversed => references.reverse(),
        Disorder::Lowered => {
            let one = place(1, last);
            references[one].index = references[one - 1].index;
        }
    }
}

/// A message with its reference words in rising order, whatever it is otherwise: what a reader that is wrong
/// on purpose makes of an order that falls.
#[cfg(test)]
pub(crate) fn put_in_order(message: &[u8]) -> Vec<u8> {
    let is_reference = |word: &&[u8]| word.len() == 4 && word[0] >> 4 == 4;
    let mut references: Vec<&[u8]> = message.chunks(4).filter(is_reference).collect();
    references.sort();
    let mut sorted = references.into_iter();
    let word = |word| match is_reference(&word) {
        true => sorted.next().expect("as many as before"),
        false => word,
    };
    message.chunks(4).flat_map(word).copied().collect()
}

/// A composition with each index once, the end set right: what such a reader makes of an index that stands
/// twice.
#[cfg(test)]
pub(crate) fn each_once(message: &[u8]) -> Vec<u8> {
    let mut indexes = std::collections::BTreeSet::new();
    let mut words: Vec<u32> = message.chunks_exact(4).map(word).collect();
    words.retain(|word| word >> 28 != 4 || indexes.insert(word >> 6));
    let count = words.len() as u32;
    if let Some(last) = words.last_mut().filter(|last| **last >> 28 == 6) {
        *last = 6 << 28 | count;
    }
    words.iter().flat_map(|word| word.to_be_bytes()).collect()
}

#[cfg(test)]
fn word(bytes: &[u8]) -> u32 {
    u32::from_be_bytes(bytes.try_into().expect("a word has 4 bytes"))
}

#[cfg(test)]
mod tests {
    use super::{disordered, each_once, put_in_order, word, Disorder, DISORDERS};
    use crate::messages::valid::{message, SMALL};
    use crate::random::Random;
    use reference::message::{encode, parse};

    /// The indexes and counts, in the order of the words.
    fn references(message: &[u8]) -> Vec<(u32, u32)> {
        let words = message.chunks(4).map(word);
        let references = words.filter(|word| word >> 28 == 4);
        references
            .map(|word| (word >> 6 & 4_095, word & 63))
            .collect()
    }

    #[test]
    fn nothing_but_the_order_is_refused() {
        let mut random = Random::of_case(1, 1);
        let (mut exchanged, mut twice) = (0, 0);
        for _ in 0..500 {
            let whole = encode(&message(4, &SMALL, &mut random));
            for disorder in DISORDERS {
                let Some(changed) = disordered(&whole, disorder, &mut random) else {
                    continue;
                };
                assert_eq!(parse(&changed), None, "{disorder:?}");
                let (before, after) = (references(&whole), references(&changed));
                match disorder {
                    Disorder::Neighbours | Disorder::Apart | Disorder::Reversed => {
                        assert_eq!(put_in_order(&changed), whole, "{disorder:?}");
                        exchanged += 1;
                    }
                    Disorder::Lowered => {
                        assert_eq!(after.len(), before.len());
                        assert!(parse(&each_once(&changed)).is_some());
                        twice += 1;
                    }
                    Disorder::Doubled | Disorder::DoubledOtherCount => {
                        let more: Vec<_> = after.iter().filter(|r| !before.contains(r)).collect();
                        assert_eq!(after.len(), before.len() + 1);
                        assert_eq!(more.is_empty(), disorder == Disorder::Doubled);
                        twice += 1;
                    }
                }
            }
        }
        assert!(exchanged > 1_000 && twice > 1_000, "{exchanged} {twice}");
    }
}
