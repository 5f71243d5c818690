//! The pairs that the references of a composition name.

use reference::shingle::Shingle;
use reference::trail::{multiset_of_entries, Multiset};
use reference::word::Reference;

/// The multiset of the pairs that references name in a list; nothing where one names none, or where the counts
/// do not add up to 1 to 32.
pub fn named(references: &[Reference], list: &[Shingle]) -> Option<Multiset> {
    let mut pairs = Vec::new();
    for reference in references {
        let shingle = list.get(reference.index as usize)?;
        let pair = (shingle.previous, shingle.own);
        pairs.push((pair, u64::from(reference.count)));
    }
    multiset_of_entries(&pairs)
}
