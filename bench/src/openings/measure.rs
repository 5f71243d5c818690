//! Costs of one opening.

use super::sketches::Asked;
use crate::pass::{cost, Cost};
use calls::rcds_sketch_open;
use reference::cell_table;
use reference::opening::{difference, takings};
use reference::shingle_table;
use std::hint::black_box;

/// What one opening cost.
pub struct Row {
    pub name: String,
    pub width: u64,
    /// Shingles of the own list, and whether they are sorted.
    pub own: usize,
    pub sorted: bool,
    /// Shingles that are taken.
    pub taken: usize,
    pub answer: u64,
    pub cost: Cost,
}

/// The call, on slices, with four levels.
fn open(width: u64, theirs: &[u8], own: &[u8], shingles: &mut [u8]) -> u64 {
    // All slices are there in full, and they do not overlap.
    unsafe {
        rcds_sketch_open(
            4,
            width,
            theirs.as_ptr(),
            theirs.len(),
            own.as_ptr(),
            own.len(),
            shingles.as_mut_ptr(),
            shingles.len(),
        )
    }
}

/// Measures one opening, whose answer and list are compared with the reference's.
pub fn row(asked: &Asked) -> Row {
    let Asked {
        name,
        width,
        list,
        theirs,
        own,
    } = asked;
    let table = |cells| {
        let mut bytes = vec![0; 120 * *width as usize];
        cell_table::write(cells, &mut bytes);
        bytes
    };
    let (their_table, own_table) = (table(theirs), table(own));
    let mut before = vec![0; 98_304];
    shingle_table::write(list, &mut before);
    let (mut given, mut expected) = (before.clone(), before.clone());
    let answer = open(*width, &their_table, &own_table, &mut given);
    let expected_answer =
        reference::rcds::rcds_sketch_open(4, *width, &their_table, &own_table, &mut expected);
    let equal = answer == expected_answer && given == expected;
    assert!(equal, "a wrong opening: {name}");
    let cost = cost(|| {
        given.copy_from_slice(&before);
        black_box(open(
            *width,
            black_box(&their_table),
            &own_table,
            &mut given,
        ));
    });
    Row {
        name: name.clone(),
        width: *width,
        own: list.len(),
        sorted: list.windows(2).all(|two| two[0] <= two[1]),
        taken: takings(&difference(theirs, own), 4, *width).taken.len(),
        answer,
        cost,
    }
}
