//! The form of a composition: "A composition whose trail is the only one omits the number word, and one with
//! others carries it." (document 02, request 5)

use reference::shingle::Shingle;
use reference::word::Reference;
use std::collections::BTreeSet;

/// What a composition says of its trail.
#[derive(Clone, Copy, Debug, PartialEq, Eq, PartialOrd, Ord)]
pub enum Form {
    /// Omitted: of one child, of different ones, and of some that are equal.
    OmittedOfOne,
    OmittedOfDifferent,
    OmittedOfEqual,
    /// Carried: 0, and another.
    Carried0,
    CarriedAbove0,
}

/// All of them.
pub const FORMS: [Form; 5] = [
    Form::OmittedOfOne,
    Form::OmittedOfDifferent,
    Form::OmittedOfEqual,
    Form::Carried0,
    Form::CarriedAbove0,
];

/// The form of a composition with this number and these references, which name the shingles of the list.
pub fn form(number: Option<u32>, references: &[Reference], list: &[Shingle]) -> Form {
    let children: u32 = references.iter().map(|reference| reference.count).sum();
    let named = references
        .iter()
        .filter_map(|reference| list.get(reference.index as usize));
    let different: BTreeSet<u64> = named.map(|shingle| shingle.own).collect();
    match number {
        Some(0) => Form::Carried0,
        Some(_) => Form::CarriedAbove0,
        None if children == 1 => Form::OmittedOfOne,
        None if different.len() == children as usize => Form::OmittedOfDifferent,
        None => Form::OmittedOfEqual,
    }
}
