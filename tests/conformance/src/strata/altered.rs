//! What is lent in other lengths, and cells with other content.

use super::cases::{Case, Tables};
use crate::random::Random;
use reference::cell_table::CELL_BYTES;
use reference::lent::Lent;
use reference::shingle_table;
use reference::strata::{STRATUM_BYTES, TABLE_BYTES};

/// The bytes of a row.
const ROW: usize = 8;

/// The bytes of a count, the last ones of an entry.
const COUNT_BYTES: usize = 2;

/// Any bytes after the cells, in some cases.
pub fn lengthen(table: &mut Vec<u8>, random: &mut Random) {
    let more = random.one_of(&[0, 0, 0, 1, 8, 39, 40, 500]);
    table.extend(random.bytes(more));
}

/// Two parts of a table, each of so many bytes, exchanged.
fn exchange(table: &mut [u8], bytes: usize, random: &mut Random) {
    let last = (TABLE_BYTES / bytes) as u64 - 1;
    let [one, other] = [0; 2].map(|_: u8| bytes * random.between(0, last) as usize);
    for k in 0..bytes {
        table.swap(one + k, other + k);
    }
}

/// Some rows of a table of strata changed, or cells or strata exchanged.
pub fn rows(table: &mut [u8], random: &mut Random) {
    for _ in 0..random.one_of(&[1, 1, 1, 2, 10]) {
        let start = ROW * random.between(0, (TABLE_BYTES / ROW) as u64 - 1) as usize;
        let row = &mut table[start..start + ROW];
        match random.between(0, 7) {
            0 => row.fill(0),
            1 => row.copy_from_slice(&random.bytes(ROW)),
            2 => row.fill(0xff),
            3 => row[ROW - 1] = row[ROW - 1].wrapping_add(1),
            4 | 5 => row[random.between(0, 7) as usize] ^= 1 << random.between(0, 7),
            6 => exchange(table, CELL_BYTES, random),
            _ => exchange(table, STRATUM_BYTES, random),
        }
    }
}

/// A count 0 in one entry of the list, the rest of which stays.
pub fn cut_off(lent: &mut Lent, random: &mut Random) {
    let last = lent.shingle_list().len() as u64 - 1;
    let end = shingle_table::ENTRY_BYTES * (random.between(0, last) as usize + 1);
    lent.shingles[end - COUNT_BYTES..end].fill(0);
}

/// A size around the limit, or any.
fn resize(bytes: &mut Vec<u8>, limit: usize, entry: usize, random: &mut Random) {
    let short = random.between(0, limit as u64 - 1) as usize;
    let sizes = [
        0,
        1,
        short,
        limit - entry,
        limit - 1,
        limit,
        limit + 1,
        limit + entry,
        2 * limit,
    ];
    bytes.resize(random.one_of(&sizes), 0);
}

/// How many pieces `one_size` goes through.
pub const PIECES: usize = 5;

/// Any size of one piece: the three tables of a setup, and the one or two of strata.
pub fn one_size(case: &mut Case, width: u64, piece: usize, random: &mut Random) {
    let cells = 3 * width.clamp(1, 64) as usize * CELL_BYTES;
    match (piece % PIECES, &mut case.tables) {
        (0, _) => resize(&mut case.lent.nodes, 65_536, 16, random),
        (1, _) => resize(&mut case.lent.shingles, 98_304, 24, random),
        (2, _) => resize(&mut case.lent.cells, cells, CELL_BYTES, random),
        (_, Tables::Build { strata }) => resize(strata, TABLE_BYTES, CELL_BYTES, random),
        (3, Tables::Estimate { theirs, .. }) => resize(theirs, TABLE_BYTES, CELL_BYTES, random),
        (_, Tables::Estimate { own, .. }) => resize(own, TABLE_BYTES, CELL_BYTES, random),
    }
}

/// Some of what is lent as a question refuses it: the settings of the state, in its five rows, the string,
/// the tables.
pub fn several(case: &mut Case, width: u64, random: &mut Random) {
    // Too small and too large for each of w, p, L, M and q.
    let outside = [[1, 13], [1, 9], [0, 5], [0, 65_537], [0, 65]];
    for (row, numbers) in outside.iter().enumerate() {
        if random.between(0, 5) == 0 {
            let number: u64 = match random.between(0, 3) {
                0 => u64::MAX,
                _ => random.one_of(numbers),
            };
            case.state[ROW * row..ROW * (row + 1)].copy_from_slice(&number.to_be_bytes());
        }
    }
    if random.between(0, 2) == 0 {
        let length = random.one_of(&[65_536, 65_537, 70_000]);
        case.lent.string.resize(length, 3);
    }
    for piece in 0..PIECES {
        if random.between(0, 3) == 0 {
            one_size(case, width, piece, random);
        }
    }
}
