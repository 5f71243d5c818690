//! Single cells taken in any order: document 02, request 13.

use crate::opening::{difference, remove, single, true_difference, Taken, Takings};
use crate::shingle::Shingle;
use crate::sketch::{f, places, sketch, Cell};
use std::collections::BTreeSet;

/// The single cells, by rising index, and what each of them names.
pub fn singles(cells: &[Cell], levels: u64, width: u64) -> Vec<(usize, Taken)> {
    let mut singles = Vec::new();
    for (i, cell) in cells.iter().enumerate() {
        if let Ok(named) = single(cell, i, levels, width) {
            singles.push((i, named));
        }
    }
    singles
}

/// "the single cell of lowest index" (document 01), as a choice.
pub fn lowest(singles: &[usize]) -> usize {
    singles[0]
}

/// "from the highest cell down"
pub fn highest(singles: &[usize]) -> usize {
    singles[singles.len() - 1]
}

/// "every order of taking that goes on until no single cell is left"
///
/// The order is a choice: it is handed the indexes of the single cells, rising, and answers one of
/// them. Where a cell is single that does not truly hold one shingle, some orders never end. So at
/// most `most` are taken; if a cell is single even then, what they came to is the error.
///
/// For allowed settings only, and 3q cells.
pub fn takings_by(
    mut choice: impl FnMut(&[usize]) -> usize,
    difference: &[Cell],
    levels: u64,
    width: u64,
    most: usize,
) -> Result<Takings, Takings> {
    let mut takings = Takings {
        taken: Vec::new(),
        left: difference.to_vec(),
    };
    loop {
        let singles = singles(&takings.left, levels, width);
        if singles.is_empty() {
            return Ok(takings);
        }
        if takings.taken.len() == most {
            return Err(takings);
        }
        let (indexes, named): (Vec<usize>, Vec<Taken>) = singles.into_iter().unzip();
        let chosen = choice(&indexes);
        let place = indexes.binary_search(&chosen).expect("one of the indexes");
        remove(&mut takings.left, &named[place], width);
        takings.taken.push(named[place]);
    }
}

/// "state reachable by taking single cells": "the set taken" and what it left of the cells.
#[derive(Clone, Debug, PartialEq, Eq, PartialOrd, Ord)]
pub struct State {
    pub taken: BTreeSet<Taken>,
    pub left: Vec<Cell>,
}

/// The states that follow a state, one for each single cell.
fn following(state: &State, levels: u64, width: u64) -> Vec<State> {
    let mut following = Vec::new();
    for (_, named) in singles(&state.left, levels, width) {
        let mut next = state.clone();
        remove(&mut next.left, &named, width);
        next.taken.insert(named);
        following.push(next);
    }
    following
}

/// "every state reachable by taking single cells", the first one too; none if there are more than
/// `most`.
///
/// For allowed settings only, and 3q cells.
pub fn reachable(
    difference: &[Cell],
    levels: u64,
    width: u64,
    most: usize,
) -> Option<BTreeSet<State>> {
    let first = State {
        taken: BTreeSet::new(),
        left: difference.to_vec(),
    };
    let mut reached = BTreeSet::from([first.clone()]);
    let mut not_followed = vec![first];
    while let Some(state) = not_followed.pop() {
        if reached.len() > most {
            return None;
        }
        let mut following = following(&state, levels, width);
        following.retain(|next| reached.insert(next.clone()));
        not_followed.extend(following);
    }
    Some(reached)
}

/// The parts of a set of this size. Where every single cell truly holds one shingle, a state has
/// taken a part of the true difference, and its cells are those of the rest: there are at most as
/// many states.
pub fn parts(size: usize) -> usize {
    1 << size
}

/// "each single cell truly holds one shingle": of the true difference and without what was taken,
/// exactly one lies in that cell.
fn all_true(state: &State, truth: &BTreeSet<Taken>, levels: u64, width: u64) -> bool {
    let rest = truth - &state.taken;
    let lying_in = |i: usize| {
        let lies_there = |one: &&Taken| places(&one.shingle, width).contains(&i);
        rest.iter().filter(lies_there).count()
    };
    let singles = singles(&state.left, levels, width);
    singles.iter().all(|&(i, _)| lying_in(i) == 1)
}

/// "at every state reachable by taking single cells each single cell truly holds one shingle"
///
/// By brute force over all states, so for differences of few shingles. For allowed settings only.
pub fn truthful(theirs: &[Shingle], own: &[Shingle], levels: u64, width: u64) -> bool {
    let truth = true_difference(theirs, own);
    let cells = difference(&sketch(theirs, width), &sketch(own, width));
    let reached = reachable(&cells, levels, width, parts(truth.len()));
    let all_true = |state: &State| all_true(state, &truth, levels, width);
    reached.is_some_and(|states| states.iter().all(all_true))
}

/// "alone in some cell"
fn alone_in_some_cell(one: &Shingle, others: &[Shingle], width: u64) -> bool {
    let lies_in = |place: &usize, other: &Shingle| places(other, width).contains(place);
    let alone = |place: &usize| !others.iter().any(|other| lies_in(place, other));
    places(one, width).iter().any(alone)
}

/// "can be lined up so that each shingle is alone in some cell once those before it are gone"
///
/// Every shingle is tried as the first, before every line of the others: for few shingles. The sums
/// of the cells are not looked at.
pub fn lined_up(shingles: &[Shingle], width: u64) -> bool {
    let leads = |first: usize| {
        let mut others = shingles.to_vec();
        let one = others.remove(first);
        alone_in_some_cell(&one, &others, width) && lined_up(&others, width)
    };
    shingles.is_empty() || (0..shingles.len()).any(leads)
}

/// Whether F(0), F(1) and F(2) agree modulo q, so that a shingle lies at the same place of each third
/// of the cells. Modulo an even q they never do: FNV-1a multiplies by an odd number, so that F(0) and
/// F(1), whose first bytes differ in the last bit, differ in it too.
pub fn hashes_agree(shingle: &Shingle, width: u64) -> bool {
    let [first, second, third] = [0, 1, 2].map(|j| f(j, shingle) % width);
    first == second && second == third
}
