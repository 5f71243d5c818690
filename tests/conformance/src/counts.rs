//! Counts of a report in words, parted by commas.

use std::collections::BTreeMap;
use std::fmt::Debug;

/// Counts and what they are of.
pub fn counted<K>(counts: &BTreeMap<K, usize>, name: impl Fn(&K) -> String) -> String {
    let each = counts
        .iter()
        .map(|(key, count)| format!("{} {count}", name(key)));
    each.collect::<Vec<_>>().join(", ")
}

/// How many cases of each family were accepted, and how many refused.
pub fn of_families<K: Debug>(families: &BTreeMap<K, [usize; 2]>) -> String {
    let each = families
        .iter()
        .map(|(family, [accepted, refused])| format!("{family:?} {accepted} and {refused}"));
    each.collect::<Vec<_>>().join(", ")
}
