//! The sketch of a list of shingles: cells of sums.

use crate::fnv::fnv1a;
use crate::shingle::Shingle;

/// "A cell has five sums, each modulo 2^64: number of shingles, previous ids, own ids, tails,
/// F(3)."
pub type Cell = [u64; 5];

/// "A shingle's 20 bytes: both ids, 8 bytes each, then tail = level × 65,536 + count in 4, all
/// most significant first."
///
/// Previous id before own id, as in "A shingle ... is previous id, own id, level, count". Of a
/// tail that is not below 2^32, the 4 least significant bytes.
pub fn twenty_bytes(shingle: &Shingle) -> [u8; 20] {
    let mut bytes = [0; 20];
    bytes[..8].copy_from_slice(&shingle.previous.to_be_bytes());
    bytes[8..16].copy_from_slice(&shingle.own.to_be_bytes());
    bytes[16..].copy_from_slice(&shingle.tail().to_be_bytes()[4..]);
    bytes
}

/// "Let F(j) be FNV-1a of the byte j followed by them."
///
/// FNV-1a itself: a 0 stays 0, for this is no block id.
pub fn f(j: u8, shingle: &Shingle) -> u64 {
    let mut bytes = vec![j];
    bytes.extend(twenty_bytes(shingle));
    fnv1a(&bytes)
}

/// "a shingle lies in cells j×q + (F(j) mod q) for j = 0, 1, 2"
///
/// For allowed settings only.
pub fn places(shingle: &Shingle, width: u64) -> [usize; 3] {
    [0, 1, 2].map(|j| (u64::from(j) * width + f(j, shingle) % width) as usize)
}

/// What a shingle adds to each of its cells: "number of shingles, previous ids, own ids, tails,
/// F(3)".
pub fn part(shingle: &Shingle) -> Cell {
    [
        1,
        shingle.previous,
        shingle.own,
        shingle.tail(),
        f(3, shingle),
    ]
}

/// "five sums, each modulo 2^64"
pub fn plus(a: &Cell, b: &Cell) -> Cell {
    std::array::from_fn(|sum| a[sum].wrapping_add(b[sum]))
}

/// The same, subtracted.
pub fn minus(a: &Cell, b: &Cell) -> Cell {
    std::array::from_fn(|sum| a[sum].wrapping_sub(b[sum]))
}

/// "The sketch has 3q cells; a shingle lies in cells j×q + (F(j) mod q) for j = 0, 1, 2."
///
/// For allowed settings only.
pub fn sketch(list: &[Shingle], width: u64) -> Vec<Cell> {
    let mut cells = vec![[0; 5]; 3 * width as usize];
    for shingle in list {
        for place in places(shingle, width) {
            cells[place] = plus(&cells[place], &part(shingle));
        }
    }
    cells
}
