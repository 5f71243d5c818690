//! Trails: the orders that a multiset of pairs allows, and their numbers.
//!
//! `all_trails` is the document's sentence and nothing else: all sequences, and which of them are
//! trails. Numbers and orders are worked out from counts of trails (module `eulerian`), so that
//! they can be had for every multiset; the tests compare the two.

use crate::eulerian::trails_from;
use std::collections::{BTreeMap, BTreeSet};

/// The id of the left sibling, and the own id.
pub type Pair = (u64, u64);

/// How often each pair occurs. A pair that does not occur is not in the map.
pub type Multiset = BTreeMap<Pair, u64>;

/// "A node's k children (1 to 32)"
pub const MOST_IDS: usize = 32;

/// The largest number that an order is sent with: "4,096 for every number above 4,095".
pub const MOST_NUMBER: u64 = 4_095;

/// The pairs of a sequence, "starting from 0".
pub fn pairs(ids: &[u64]) -> Vec<Pair> {
    let previous = [0].iter().chain(ids);
    previous.copied().zip(ids.iter().copied()).collect()
}

/// The pairs with their counts.
pub fn multiset(pairs: &[Pair]) -> Multiset {
    let mut multiset = Multiset::new();
    for &pair in pairs {
        *multiset.entry(pair).or_default() += 1;
    }
    multiset
}

/// "A trail over such a multiset is a sequence of k ids whose pairs, starting from 0, are exactly
/// it."
pub fn is_trail(ids: &[u64], over: &Multiset) -> bool {
    multiset(&pairs(ids)) == *over
}

/// All trails: "Trails are ordered by ids, first id first, unsigned."
///
/// Every sequence of k own ids is tried, so for small multisets only.
pub fn all_trails(over: &Multiset) -> Vec<Vec<u64>> {
    let own: BTreeSet<u64> = over.keys().map(|&(_, own)| own).collect();
    let mut sequences = vec![vec![]];
    for _ in 0..over.values().sum() {
        let with = |ids: &Vec<u64>, id: u64| [ids.as_slice(), &[id]].concat();
        let longer = |ids: Vec<u64>| {
            own.iter()
                .map(move |&id| with(&ids, id))
                .collect::<Vec<_>>()
        };
        sequences = sequences.into_iter().flat_map(longer).collect();
    }
    sequences.retain(|ids| is_trail(ids, over));
    sequences.sort();
    sequences
}

/// The multiset without one of its pairs.
fn without(pair: Pair, multiset: &Multiset) -> Multiset {
    let mut rest = multiset.clone();
    match rest[&pair] {
        1 => rest.remove(&pair),
        count => rest.insert(pair, count - 1),
    };
    rest
}

/// The ids that may come after an id, rising.
fn next_ids(previous: u64, rest: &Multiset) -> Vec<u64> {
    let pairs = rest.range((previous, 0)..=(previous, u64::MAX));
    pairs.map(|(&(_, own), _)| own).collect()
}

/// "The trail number is how many trails come before the true one."
///
/// A trail that comes before it has the same first ids, then a smaller one, then anything.
pub fn trails_before(ids: &[u64]) -> u128 {
    let mut rest = multiset(&pairs(ids));
    let mut before = 0;
    for (previous, own) in pairs(ids) {
        for smaller in next_ids(previous, &rest) {
            if smaller < own {
                before += trails_from(smaller, &without((previous, smaller), &rest));
            }
        }
        rest = without((previous, own), &rest);
    }
    before
}

/// The trail before which `number` others come, if there are so many.
///
/// Of the ids that may come next, each stands for as many trails as go on from it.
pub fn trail(over: &Multiset, number: u128) -> Option<Vec<u64>> {
    if number >= trails_from(0, over) {
        return None;
    }
    let mut rest = over.clone();
    let mut left = number;
    let mut ids = Vec::new();
    while !rest.is_empty() {
        let previous = ids.last().copied().unwrap_or(0);
        let mut next = next_ids(previous, &rest);
        let last = next.pop().expect("a trail goes on from here");
        let mut own = last;
        for id in next {
            let trails = trails_from(id, &without((previous, id), &rest));
            if left < trails {
                own = id;
                break;
            }
            left -= trails;
        }
        ids.push(own);
        rest = without((previous, own), &rest);
    }
    Some(ids)
}

/// "whether its trail is the only one" (document 02, request 5): whether there is exactly one over the
/// multiset. Where there is none, none is the only one.
///
/// All trails are counted, and none is searched for.
pub fn has_only_one(over: &Multiset) -> bool {
    trails_from(0, over) == 1
}

/// The same of an order's own pairs, over which it is a trail itself. At most 32 ids.
pub fn is_only_trail(ids: &[u64]) -> bool {
    has_only_one(&multiset(&pairs(ids)))
}

/// "Numbering an order takes 1 to 32 nonzero ids, else 17, and answers 4,096 for every number
/// above 4,095." Nothing stands for 17.
pub fn number_of_order(ids: &[u64]) -> Option<u64> {
    if !(1..=MOST_IDS).contains(&ids.len()) || ids.contains(&0) {
        return None;
    }
    Some(trails_before(ids).min(u128::from(MOST_NUMBER) + 1) as u64)
}

/// The multiset of pairs with counts: "their sum k from 1 to 32", else nothing.
///
/// Entries come in any order, and the counts of equal pairs add up.
pub fn multiset_of_entries(entries: &[(Pair, u64)]) -> Option<Multiset> {
    let sum: u128 = entries.iter().map(|&(_, count)| u128::from(count)).sum();
    if !(1..=MOST_IDS as u128).contains(&sum) {
        return None;
    }
    let mut over = Multiset::new();
    for &(pair, count) in entries {
        if count > 0 {
            *over.entry(pair).or_default() += count;
        }
    }
    Some(over)
}

/// The order of a number over pairs with counts: "their sum k from 1 to 32, number at most 4,095,
/// that trail exists", else nothing, which stands for 17.
pub fn order_of_number(entries: &[(Pair, u64)], number: u64) -> Option<Vec<u64>> {
    let over = multiset_of_entries(entries)?;
    match number <= MOST_NUMBER {
        true => trail(&over, u128::from(number)),
        false => None,
    }
}
