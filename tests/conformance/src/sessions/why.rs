//! Which condition of a question refused a message, where the question has several: whether that one alone
//! does not hold. Document 01's words, read from the memory before the call.

use crate::openings;
use reference::lent::Lent as Memory;
use reference::message::{Body, Opening};
use reference::opening::{difference, takings};
use reference::receiver::{Receiver, Stage, MOST_PENDING};
use reference::reply::RULE;
use reference::shingle::Shingle;
use reference::trail::Pair;
use std::collections::{BTreeMap, BTreeSet};

/// 12: not "rule", but "settings equal the own". The rule.
pub fn rule_alone(before: &Receiver, opening: &Opening) -> Option<u32> {
    let settings = &before.settings;
    let own = [
        settings.window,
        settings.fan_out,
        settings.levels,
        settings.nominal,
        before.width,
    ];
    let theirs = [
        opening.window,
        opening.fan_out,
        opening.levels,
        opening.nominal,
        opening.width,
    ];
    (theirs.map(u64::from) == own && opening.rule != RULE).then_some(opening.rule)
}

/// 13 of a node reply: not "at most 65,536", but "at most the buffer lent now".
pub fn limit_alone(before: &Receiver, room: usize) -> bool {
    let within = 65_537..=room as u64;
    before.stage == Stage::AfterOpening && within.contains(&before.length)
}

/// 14: not "positive ones are not".
pub fn positive_own_alone(before: &Receiver, memory: &Memory, opening: &Opening) -> bool {
    let (levels, width) = (before.settings.levels, before.width);
    let cells = difference(&opening.cells, &memory.cell_list(width));
    let takings = takings(&cells, levels, width);
    openings::positive_own_alone(&takings, &memory.shingle_list())
}

/// 17: not "their sum k from 1 to 32", since it is larger. Asked only of equal children without a number: where
/// they have a trail it is the only one.
pub fn sum_alone(before: &Receiver, list: &[Shingle], body: &Body) -> bool {
    let (
        Body::Composition {
            number: None,
            references,
            ..
        },
        Some(top),
    ) = (body, before.pile.last())
    else {
        return false;
    };
    let mut pairs: BTreeMap<Pair, u64> = BTreeMap::new();
    for reference in references {
        let count = u64::from(reference.count);
        match list.get(reference.index as usize) {
            Some(named) if named.level == top.level + 1 && count <= named.count => {
                *pairs.entry((named.previous, named.own)).or_default() += count;
            }
            _ => return false,
        }
    }
    let sum: u64 = pairs.values().sum();
    let pending = before.pile.len() as u64 - 1 + sum;
    let fits = pending <= MOST_PENDING as u64 && top.level < before.settings.levels;
    let children: BTreeSet<u64> = pairs.keys().map(|pair| pair.1).collect();
    sum > 32 && fits && children.len() == 1 && has_trail(&pairs)
}

/// Whether there is a sequence "whose pairs, starting from 0, are exactly" these: every pair can be reached
/// from 0, and each id is left as often as it is entered, but for the one at which the sequence ends. The
/// start is entered once from outside.
fn has_trail(pairs: &BTreeMap<Pair, u64>) -> bool {
    let mut reached = BTreeSet::from([0]);
    let mut more = true;
    while more {
        let next: Vec<u64> = pairs
            .keys()
            .filter(|pair| reached.contains(&pair.0))
            .map(|pair| pair.1)
            .collect();
        more = next
            .into_iter()
            .fold(false, |new, id| reached.insert(id) || new);
    }
    let mut balance: BTreeMap<u64, i64> = BTreeMap::from([(0, 1)]);
    for (&(previous, own), &count) in pairs {
        *balance.entry(previous).or_default() -= count as i64;
        *balance.entry(own).or_default() += count as i64;
    }
    let mut uneven = balance.values().filter(|&&balance| balance != 0);
    let one_end = uneven.next() == Some(&1) && uneven.next().is_none();
    one_end && pairs.keys().all(|pair| reached.contains(&pair.0))
}

#[cfg(test)]
mod tests {
    use super::has_trail;
    use reference::trail::{all_trails, Multiset, Pair};

    #[test]
    fn a_trail_is_there_when_the_enumeration_has_one() {
        let ids = [0, 1, 2];
        let pairs: Vec<Pair> = ids.iter().flat_map(|&a| [1, 2].map(|b| (a, b))).collect();
        let (mut with, mut without) = (0, 0);
        for counts in 0..3_u32.pow(pairs.len() as u32) {
            let count = |k: usize| u64::from(counts / 3_u32.pow(k as u32) % 3);
            let all = (0..pairs.len()).map(|k| (pairs[k], count(k)));
            let over: Multiset = all.filter(|&(_, count)| count > 0).collect();
            if over.is_empty() || over.values().sum::<u64>() > 7 {
                continue;
            }
            let there = !all_trails(&over).is_empty();
            assert_eq!(has_trail(&over), there, "{over:?}");
            with += usize::from(there);
            without += usize::from(!there);
        }
        assert!(with > 10 && without > 10);
    }
}
