//! How a sketch is opened: the sender's cells, less the own ones, give the new list.

use crate::shingle::Shingle;
use crate::sketch::{f, minus, part, places, plus, Cell};
use std::collections::BTreeSet;

/// "the new list has at most 4,096 shingles"
pub const MOST_SHINGLES: usize = 4_096;

/// A shingle that was taken from a single cell, and "that sign".
#[derive(Clone, Copy, Debug, PartialEq, Eq, PartialOrd, Ord)]
pub struct Taken {
    pub shingle: Shingle,
    pub negative: bool,
}

/// Why a cell is not single.
#[derive(Clone, Copy, Debug, PartialEq, Eq, PartialOrd, Ord)]
pub enum NotSingle {
    /// Not so: "its number is 1, or 2^64−1".
    Number,
    /// Not so: "the tail is below 2^32".
    Tail,
    /// Not so: "level 0 to L".
    Level,
    /// Not so: "count 1 to 4,096".
    Count,
    /// Not so: "F(3) fits".
    Check,
    /// Not so: "this cell is one of that shingle's three".
    Place,
}

/// Why a sketch does not open.
#[derive(Clone, Copy, Debug, PartialEq, Eq, PartialOrd, Ord)]
pub enum Closed {
    /// Not so: "all cells end at 0".
    CellsLeft,
    /// Not so: "no shingle was taken twice".
    TakenTwice,
    /// Not so: "negative ones are in the own list".
    NegativeNotOwn,
    /// Not so: "positive ones are not".
    PositiveOwn,
    /// Not so: "the new list has at most 4,096 shingles".
    TooMany,
    /// Not so: "with no pair twice at one level".
    PairTwice,
}

/// What was taken, in the order of taking, and the cells that it left.
#[derive(Clone, Debug, PartialEq, Eq)]
pub struct Takings {
    pub taken: Vec<Taken>,
    pub left: Vec<Cell>,
}

/// "subtract own cells from the sender's"
///
/// Both are the 3q cells of one q.
pub fn difference(theirs: &[Cell], own: &[Cell]) -> Vec<Cell> {
    assert_eq!(theirs.len(), own.len());
    theirs.iter().zip(own).map(|(a, b)| minus(a, b)).collect()
}

/// "The true difference is what the sender's shingle list has and the own lacks, as positive, and the
/// reverse, as negative."
///
/// Each as it would be taken.
pub fn true_difference(theirs: &[Shingle], own: &[Shingle]) -> BTreeSet<Taken> {
    let set = |list: &[Shingle]| -> BTreeSet<Shingle> { list.iter().copied().collect() };
    let (theirs, own) = (set(theirs), set(own));
    let signed = |negative: bool| move |shingle| Taken { shingle, negative };
    let positive = (&theirs - &own).into_iter().map(signed(false));
    let negative = (&own - &theirs).into_iter().map(signed(true));
    positive.chain(negative).collect()
}

/// "A cell is single when its number is 1, or 2^64−1 (then negate the other four), the tail is
/// below 2^32 with level 0 to L and count 1 to 4,096, F(3) fits, and this cell is one of that
/// shingle's three."
///
/// Level is tail / 65,536 rounded down, count is tail mod 65,536. With a number that is neither,
/// nothing else can be asked; otherwise all that is amiss is answered. A tail that is not below
/// 2^32 has no 4 bytes, so F(3) and the three cells are not asked of it.
///
/// For allowed settings only.
pub fn single(cell: &Cell, i: usize, levels: u64, width: u64) -> Result<Taken, Vec<NotSingle>> {
    let negative = match cell[0] {
        1 => false,
        u64::MAX => true,
        _ => return Err(vec![NotSingle::Number]),
    };
    let [_, previous, own, tail, check] = if negative {
        minus(&[0; 5], cell)
    } else {
        *cell
    };
    let shingle = Shingle {
        level: tail / 65_536,
        previous,
        own,
        count: tail % 65_536,
    };
    let mut amiss = Vec::new();
    if tail >= 1 << 32 {
        amiss.push(NotSingle::Tail);
    }
    if !(0..=levels).contains(&shingle.level) {
        amiss.push(NotSingle::Level);
    }
    if !(1..=4_096).contains(&shingle.count) {
        amiss.push(NotSingle::Count);
    }
    if tail < 1 << 32 && check != f(3, &shingle) {
        amiss.push(NotSingle::Check);
    }
    if tail < 1 << 32 && !places(&shingle, width).contains(&i) {
        amiss.push(NotSingle::Place);
    }
    if amiss.is_empty() {
        Ok(Taken { shingle, negative })
    } else {
        Err(amiss)
    }
}

/// "the single cell of lowest index"
fn lowest_single(cells: &[Cell], levels: u64, width: u64) -> Option<Taken> {
    let mut all = cells.iter().enumerate();
    all.find_map(|(i, cell)| single(cell, i, levels, width).ok())
}

/// "remove its shingle with that sign from its three cells"
pub fn remove(cells: &mut [Cell], taken: &Taken, width: u64) {
    for place in places(&taken.shingle, width) {
        cells[place] = if taken.negative {
            plus(&cells[place], &part(&taken.shingle))
        } else {
            minus(&cells[place], &part(&taken.shingle))
        };
    }
}

/// "Take the single cell of lowest index, remove its shingle with that sign from its three cells,
/// repeat, at most 3q times."
///
/// So 3q may be taken and no more, even if a cell is single then. Each time, the lowest index is
/// looked for from 0. For allowed settings only, and 3q cells.
pub fn takings(difference: &[Cell], levels: u64, width: u64) -> Takings {
    assert_eq!(difference.len() as u64, 3 * width);
    let mut left = difference.to_vec();
    let mut taken = Vec::new();
    for _ in 0..3 * width {
        match lowest_single(&left, levels, width) {
            Some(found) => {
                remove(&mut left, &found, width);
                taken.push(found);
            }
            None => break,
        }
    }
    Takings { taken, left }
}

/// "the new list": the own one, less the negative ones, and the positive ones with it. "The list
/// is sorted by level, previous id, own id, unsigned".
///
/// Every own entry that equals a negative one goes, and a positive one comes as often as it was
/// taken. Where the sketch opens, the first matters only over an own list that has one shingle
/// twice, which neither a setup nor an accepted opening leaves, and the second never.
pub fn new_list(own: &[Shingle], taken: &[Taken]) -> Vec<Shingle> {
    let negative = of_sign(taken, true);
    let mut list = own.to_vec();
    list.retain(|shingle| !negative.contains(shingle));
    list.extend(of_sign(taken, false));
    list.sort();
    list
}

/// "negative ones", or "positive ones".
fn of_sign(taken: &[Taken], negative: bool) -> Vec<Shingle> {
    let mut shingles = Vec::new();
    for one in taken {
        if one.negative == negative {
            shingles.push(one.shingle);
        }
    }
    shingles
}

/// "all cells end at 0"
fn all_zero(cells: &[Cell]) -> bool {
    cells.iter().all(|cell| *cell == [0; 5])
}

/// "no shingle was taken twice"
///
/// The same four fields, whatever the signs.
fn none_twice(taken: &[Taken]) -> bool {
    let earlier = |k: usize| taken[..k].iter().any(|one| one.shingle == taken[k].shingle);
    !(0..taken.len()).any(earlier)
}

/// "with no pair twice at one level"
///
/// A sorted list has equal pairs side by side.
fn no_pair_twice(sorted: &[Shingle]) -> bool {
    sorted.windows(2).all(|two| two[0].pair() != two[1].pair())
}

/// "The sketch opens if all cells end at 0, no shingle was taken twice, negative ones are in the
/// own list, positive ones are not, and the new list has at most 4,096 shingles with no pair twice
/// at one level."
///
/// Every condition that does not hold, in this order; none if the sketch opens. In the own list is
/// a shingle that has all four fields of an entry, the count too.
pub fn closed(takings: &Takings, own: &[Shingle]) -> Vec<Closed> {
    let negative = of_sign(&takings.taken, true);
    let positive = of_sign(&takings.taken, false);
    let list = new_list(own, &takings.taken);
    let conditions = [
        (all_zero(&takings.left), Closed::CellsLeft),
        (none_twice(&takings.taken), Closed::TakenTwice),
        (
            negative.iter().all(|shingle| own.contains(shingle)),
            Closed::NegativeNotOwn,
        ),
        (
            !positive.iter().any(|shingle| own.contains(shingle)),
            Closed::PositiveOwn,
        ),
        (list.len() <= MOST_SHINGLES, Closed::TooMany),
        (no_pair_twice(&list), Closed::PairTwice),
    ];
    let mut failing = Vec::new();
    for (holds, otherwise) in conditions {
        if !holds {
            failing.push(otherwise);
        }
    }
    failing
}

/// "does the sketch open?" With a yes the new list, with a no every condition that does not hold.
///
/// The own cells and the own list are those of the lent tables, whatever these hold: "other
/// entries are read as given". For allowed settings only, and 3q cells at both ends.
pub fn open(
    levels: u64,
    width: u64,
    theirs: &[Cell],
    own: &[Cell],
    list: &[Shingle],
) -> Result<Vec<Shingle>, Vec<Closed>> {
    let takings = takings(&difference(theirs, own), levels, width);
    let failing = closed(&takings, list);
    if failing.is_empty() {
        Ok(new_list(list, &takings.taken))
    } else {
        Err(failing)
    }
}
