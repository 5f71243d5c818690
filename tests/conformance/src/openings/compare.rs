//! One call and one comparison.

use super::any_order::from_the_highest;
use super::cases::Case;
use crate::clock::timed;
use crate::failure::{Difference, Failure};
use crate::lent::{for_reading, is_shared, Lent};
use crate::random::Random;
use reference::cell_table;
use reference::opening::{closed, difference, single, takings, Closed, NotSingle, Takings};
use reference::rcds::{rcds_sketch_open, ACCEPTED};
use reference::shingle::Shingle;
use reference::shingle_table;
use std::collections::BTreeSet;

/// `rcds_sketch_open` as C declares it.
pub type SketchOpen =
    unsafe extern "C" fn(u64, u64, *const u8, usize, *const u8, usize, *mut u8, usize) -> u64;

/// What a case came to.
#[derive(Debug)]
pub struct Done {
    pub answer: u64,
    /// Whether the two cell tables were one memory.
    pub shared: bool,
    /// How many shingles were taken, and whether they were as many as may be.
    pub taken: usize,
    pub all_takings: bool,
    /// Why the sketch does not open.
    pub closed: Vec<Closed>,
    /// Whether positive shingles of the own list are all that is amiss.
    pub own_alone: bool,
    /// Of the cells that are left with number 1 or −1: why one is not single, where that is the only
    /// reason.
    pub not_single: BTreeSet<NotSingle>,
    /// Where both lists are known: whether each single cell truly holds one shingle, and whether a buyer who opens from
    /// the highest cell down comes to the same.
    pub from_the_highest: Option<[bool; 2]>,
}

/// Runs a case through the function and through the reference. What it came to, if all is equal.
pub fn compare(case: &Case, function: SketchOpen) -> Result<Done, Failure> {
    call(case, function).map_err(|difference| Failure {
        call: "rcds_sketch_open",
        seed: case.seed,
        number: case.number,
        case: case.to_string(),
        difference,
    })
}

fn call(case: &Case, function: SketchOpen) -> Result<Done, Difference> {
    let mut random = Random::of_case(case.seed ^ 1, case.number);
    let random = &mut random;
    let [of_theirs, of_own, of_shingles] = case.shifts;
    let mut theirs = Lent::new("sender's cell table", &case.theirs, of_theirs, random);
    let mut own = Lent::new("own cell table", &case.own, of_own, random);
    let mut shingles = Lent::new("shingle table", &case.shingles, of_shingles, random);
    let read = for_reading([&mut theirs, &mut own]);
    // All pieces are there in full, and the one for writing stands in memory of its own.
    let given = timed(|| unsafe {
        function(
            case.levels,
            case.width,
            read[0],
            theirs.length(),
            read[1],
            own.length(),
            shingles.pointer(),
            shingles.length(),
        )
    });
    let from_the_highest = from_the_highest(case);
    if let Some(buyer) = from_the_highest.as_ref().filter(|buyer| buyer.truthful) {
        expect_answer(buyer.answer, given)?;
        shingles.expect(&buyer.shingles)?;
    }
    let mut expected_shingles = case.shingles.clone();
    let expected = rcds_sketch_open(
        case.levels,
        case.width,
        &case.theirs,
        &case.own,
        &mut expected_shingles,
    );
    expect_answer(expected, given)?;
    shingles.expect(&expected_shingles)?;
    theirs.expect_unchanged()?;
    own.expect_unchanged()?;
    let alike = |answer: u64, table: &[u8]| answer == expected && table == expected_shingles;
    Ok(Done {
        shared: is_shared(&read),
        from_the_highest: from_the_highest
            .map(|buyer| [buyer.truthful, alike(buyer.answer, &buyer.shingles)]),
        ..done(case, given)
    })
}

fn expect_answer(expected: u64, given: u64) -> Result<(), Difference> {
    match given == expected {
        true => Ok(()),
        false => Err(Difference::Answer { expected, given }),
    }
}

/// Whether positive shingles of the own list are all that is amiss: with the others alone the sketch would
/// open. (Their pairs are in the new list twice, so theirs is never the only condition that fails.)
pub fn positive_own_alone(takings: &Takings, own: &[Shingle]) -> bool {
    let mut others = takings.clone();
    others
        .taken
        .retain(|taken| taken.negative || !own.contains(&taken.shingle));
    others != *takings && closed(&others, own).is_empty()
}

/// What the case came to, from the reference.
fn done(case: &Case, answer: u64) -> Done {
    if answer < ACCEPTED && answer != 14 {
        return Done {
            answer,
            shared: false,
            taken: 0,
            all_takings: false,
            closed: Vec::new(),
            own_alone: false,
            not_single: BTreeSet::new(),
            from_the_highest: None,
        };
    }
    let (levels, width) = (case.levels, case.width);
    let cells = |table: &[u8]| cell_table::read(table, width);
    let takings = takings(
        &difference(&cells(&case.theirs), &cells(&case.own)),
        levels,
        width,
    );
    let list = shingle_table::read(&case.shingles);
    let closed = closed(&takings, &list);
    let own_alone = positive_own_alone(&takings, &list);
    let Takings { taken, left } = takings;
    let mut not_single = BTreeSet::new();
    for (i, cell) in left.iter().enumerate() {
        if let Err(amiss) = single(cell, i, levels, width) {
            if amiss.len() == 1 {
                not_single.insert(amiss[0]);
            }
        }
    }
    Done {
        answer,
        shared: false,
        all_takings: taken.len() == 3 * width as usize,
        taken: taken.len(),
        closed,
        own_alone,
        not_single,
        from_the_highest: None,
    }
}
