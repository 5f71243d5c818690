//! The strata estimator: about how many shingles of two lists differ.
//!
//! A table of strata has the cells of each stratum in a row, stratum 0 first: stratum i has cells 12i to
//! 12i + 11.

use crate::cell_table::{self, CELL_BYTES};
use crate::opening::{closed, difference, takings, Closed, Taken};
use crate::shingle::Shingle;
use crate::sketch::{f, sketch, Cell};

/// "16 strata"
pub const STRATA: usize = 16;

/// "each a sketch with q = 4"
pub const WIDTH: u64 = 4;

/// The bytes of one stratum: "The sketch has 3q cells".
pub const STRATUM_BYTES: usize = 3 * WIDTH as usize * CELL_BYTES;

/// The bytes of a table of strata: "192 cells".
pub const TABLE_BYTES: usize = STRATA * STRATUM_BYTES;

/// Shingles whose F(3) is 0, so that all its 64 bits are trailing zeros.
pub const CHECKS_0: [Shingle; 3] = [
    Shingle {
        level: 0,
        previous: 0x2b19_593c_9b48_46e3,
        own: 0x1b34_3921_4b2a_f157,
        count: 1,
    },
    Shingle {
        level: 1,
        previous: 0x152c_4e7b_d06e_2a00,
        own: 0x010e_1218_6c21_2c12,
        count: 1,
    },
    Shingle {
        level: 1,
        previous: 0x0f7d_1e0a_0600_1e12,
        own: 0x0f09_3a3c_7b04_0b13,
        count: 4_096,
    },
];

/// Shingles whose F(3) is 2^63, so that it has 63 trailing zeros.
pub const CHECKS_2_63: [Shingle; 3] = [
    Shingle {
        level: 0,
        previous: 0x1f17_3a28_a123_dc2d,
        own: 0x0331_1d7f_1e42_4d3d,
        count: 1,
    },
    Shingle {
        level: 1,
        previous: 0x0b0a_1c0d_3c69_023c,
        own: 0x020d_0034_003b_2239,
        count: 1,
    },
    Shingle {
        level: 1,
        previous: 0x0408_5a10_cce8_6a75,
        own: 0x0b7b_231f_3952_3e79,
        count: 4_096,
    },
];

/// "A shingle goes to the stratum given by the trailing zero bits of its F(3), 15 at most."
///
/// Bit by bit, from the lowest.
pub fn stratum(shingle: &Shingle) -> usize {
    let check = f(3, shingle);
    let mut zeros = 0;
    while zeros < STRATA - 1 && check >> zeros & 1 == 0 {
        zeros += 1;
    }
    zeros
}

/// The shingles of a list that go to stratum i.
pub fn of_stratum(list: &[Shingle], i: usize) -> Vec<Shingle> {
    let goes_there = |shingle: &&Shingle| stratum(shingle) == i;
    list.iter().filter(goes_there).copied().collect()
}

/// "16 strata, each a sketch with q = 4."
///
/// Of any list, as it is given: a shingle that stands there twice is in its cells twice.
pub fn build(list: &[Shingle]) -> Vec<Vec<Cell>> {
    let stratum = |i: usize| sketch(&of_stratum(list, i), WIDTH);
    (0..STRATA).map(stratum).collect()
}

/// "A stratum opens by document 01's rule, but own list means own shingles of that stratum, and the
/// last two conditions, size and pairs, are dropped."
///
/// The shingles that stratum i lists, of both signs; with a no every condition that does not hold. The
/// cells may be any: what is taken from them need not be of that stratum.
pub fn open(
    i: usize,
    levels: u64,
    theirs: &[Cell],
    own: &[Cell],
    list: &[Shingle],
) -> Result<Vec<Taken>, Vec<Closed>> {
    let takings = takings(&difference(theirs, own), levels, WIDTH);
    let dropped = |condition: &Closed| matches!(condition, Closed::TooMany | Closed::PairTwice);
    let mut failing = closed(&takings, &of_stratum(list, i));
    failing.retain(|condition| !dropped(condition));
    if failing.is_empty() {
        Ok(takings.taken)
    } else {
        Err(failing)
    }
}

/// "Go from stratum 15 down, adding the shingles that each opened stratum lists; at the first stratum i
/// that does not open, the estimate is the sum so far times 2^(i+1). If all open it is the plain sum."
pub fn estimate(levels: u64, theirs: &[Vec<Cell>], own: &[Vec<Cell>], list: &[Shingle]) -> u64 {
    let mut sum = 0;
    for i in (0..STRATA).rev() {
        match open(i, levels, &theirs[i], &own[i], list) {
            Ok(listed) => sum += listed.len() as u64,
            Err(_) => return sum * 2_u64.pow(i as u32 + 1),
        }
    }
    sum
}

/// Writes the 192 cells to the front of the table, which has room for them. "what lies past an answer is
/// untouched"
pub fn write(strata: &[Vec<Cell>], table: &mut [u8]) {
    for (i, cells) in strata.iter().enumerate() {
        let bytes = &mut table[STRATUM_BYTES * i..STRATUM_BYTES * (i + 1)];
        cell_table::write(cells, bytes);
    }
}

/// The first 192 cells of the table, as strata: "any cells are estimated so".
///
/// For a table long enough for them.
pub fn read(table: &[u8]) -> Vec<Vec<Cell>> {
    let stratum = |i: usize| cell_table::read(&table[STRATUM_BYTES * i..], WIDTH);
    (0..STRATA).map(stratum).collect()
}
