//! Which of its trails a case is about, so that a run has each that may wrongly be said to be the only one, or
//! wrongly not: document 02, request 5.

use super::orders::trails;
use reference::trail::trails_before;
use std::collections::BTreeSet;

/// A trail among those over its pairs.
#[derive(Clone, Copy, Debug, PartialEq, Eq, PartialOrd, Ord)]
pub enum Which {
    /// The only one: of different ids, or with an id more than once.
    OnlyOfDifferent,
    OnlyOfRepeated,
    /// One of two.
    FirstOfTwo,
    SecondOfTwo,
    /// One of more than two.
    FirstOfMore,
    BetweenMore,
    LastOfMore,
}

/// All of them.
pub const ALL: [Which; 7] = [
    Which::OnlyOfDifferent,
    Which::OnlyOfRepeated,
    Which::FirstOfTwo,
    Which::SecondOfTwo,
    Which::FirstOfMore,
    Which::BetweenMore,
    Which::LastOfMore,
];

/// Which trail the ids are, of at most 32.
pub fn which(ids: &[u64]) -> Which {
    let different: BTreeSet<u64> = ids.iter().copied().collect();
    let all = trails(ids);
    match (all, trails_before(ids)) {
        (1, _) if different.len() == ids.len() => Which::OnlyOfDifferent,
        (1, _) => Which::OnlyOfRepeated,
        (2, 0) => Which::FirstOfTwo,
        (2, _) => Which::SecondOfTwo,
        (_, 0) => Which::FirstOfMore,
        (_, before) if before + 1 == all => Which::LastOfMore,
        _ => Which::BetweenMore,
    }
}
