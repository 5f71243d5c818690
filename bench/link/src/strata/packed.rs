//! What a table of strata holds. With width 4 a shingle's three cells depend on F(3) modulo 4 alone, which
//! its stratum fixes but for one bit in stratum 0. So a table is made of 17 cells, each there three times,
//! and the other 141 are 0.

use super::pair::Pair;
use super::rough::middle;

/// The bytes of a cell, and the cells of a stratum.
const CELL: usize = 40;
const CELLS: usize = 12;

/// The bytes of a stratum.
pub const STRATUM: usize = CELL * CELLS;

/// The cells of a stratum that are not 0, those side by side that are equal.
fn copies(stratum: usize) -> &'static [[usize; 3]] {
    match stratum {
        0 => &[[0, 7, 10], [2, 5, 8]],
        1 => &[[3, 4, 9]],
        _ => &[[1, 6, 11]],
    }
}

/// Cell c of a stratum.
fn cell(stratum: &[u8], c: usize) -> &[u8] {
    &stratum[CELL * c..CELL * (c + 1)]
}

/// Whether a table has copies of 17 cells and zeros elsewhere.
pub fn is_of_copies(table: &[u8]) -> bool {
    table.chunks(STRATUM).enumerate().all(|(i, stratum)| {
        let mut expected = vec![0; STRATUM];
        for copies in copies(i) {
            for c in copies {
                expected[CELL * c..CELL * (c + 1)].copy_from_slice(cell(stratum, copies[0]));
            }
        }
        expected == stratum
    })
}

/// How many cells of a table are not 0.
fn filled_cells(table: &[u8]) -> usize {
    let is_zero = |cell: &&[u8]| cell.iter().all(|byte| *byte == 0);
    table.chunks(CELL).filter(|cell| !is_zero(cell)).count()
}

/// How many strata a table has up to the highest that is not 0.
fn filled_strata(table: &[u8]) -> usize {
    let mut strata = table.chunks(STRATUM);
    let highest = strata.rposition(|stratum| stratum.iter().any(|byte| *byte != 0));
    highest.map_or(0, |highest| highest + 1)
}

/// The heads of the columns.
pub const HEADS: [&str; 3] = ["shingles", "cells not 0", "strata"];

/// Fewest, middle and most shingles, cells that are not 0, and strata up to the highest that is not 0.
pub fn cells(pairs: &[Pair]) -> String {
    let tables = || pairs.iter().flat_map(|pair| &pair.strata);
    let spread = |values: Vec<usize>| {
        let ends = [values.iter().min(), values.iter().max()].map(|end| end.map_or(0, |end| *end));
        format!("{}, {}, {}", ends[0], middle(values), ends[1])
    };
    let lists = pairs.iter().flat_map(|pair| [&pair.theirs, &pair.own]);
    [
        spread(lists.map(Vec::len).collect()),
        spread(tables().map(|table| filled_cells(table)).collect()),
        spread(tables().map(|table| filled_strata(table)).collect()),
    ]
    .join(" | ")
}
