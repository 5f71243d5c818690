//! The questions that a setup asks, those of a byte range, and that of the most blocks. A function
//! answers `true` for a yes.

use crate::crossed::{self, Crossed};
use crate::most_blocks::MOST_DISTANCE;
use crate::opening::MOST_SHINGLES;
use crate::settings::Settings;
use crate::{cell_table, node_table, sender, shingle_table, strata};

/// The bytes of a string that question 6 allows.
pub const MOST_BYTES: usize = 65_536;

/// The nodes of a tree that question 8 allows.
pub const MOST_NODES: usize = 4_096;

/// "1 w 2 to 12?"
pub fn window_allowed(settings: &Settings) -> bool {
    (2..=12).contains(&settings.window)
}

/// "2 p 2 to 8?"
pub fn fan_out_allowed(settings: &Settings) -> bool {
    (2..=8).contains(&settings.fan_out)
}

/// "3 L 1 to 4?"
pub fn levels_allowed(levels: u64) -> bool {
    (1..=4).contains(&levels)
}

/// "4 M from p^L to 65,536?" Asked after 2 and 3 had a yes, so that the power is small.
pub fn nominal_allowed(settings: &Settings) -> bool {
    let least = settings.fan_out.pow(settings.levels as u32);
    (least..=65_536).contains(&settings.nominal)
}

/// "5 q 1 to 64?"
pub fn width_allowed(width: u64) -> bool {
    (1..=64).contains(&width)
}

/// "6 string at most 65,536 bytes?"
pub fn string_allowed(string: &[u8]) -> bool {
    string.len() <= MOST_BYTES
}

/// "7 lent tables long enough for 4,096 nodes ...?", asked of the node table.
pub fn node_table_allowed(table: &[u8]) -> bool {
    table.len() >= MOST_NODES * node_table::ENTRY_BYTES
}

/// The same, asked of the shingle table: "4,096 shingles".
pub fn shingle_table_allowed(table: &[u8]) -> bool {
    table.len() >= MOST_SHINGLES * shingle_table::ENTRY_BYTES
}

/// The same, asked of a cell table: "3q cells". Asked after 5 had a yes, so that the product is small.
pub fn cell_table_allowed(table: &[u8], width: u64) -> bool {
    table.len() >= 3 * width as usize * cell_table::CELL_BYTES
}

/// The same, asked of the state, which is lent with the tables.
pub fn state_allowed(state: &[u8]) -> bool {
    state.len() >= sender::STATE_BYTES
}

/// The same, asked of a table of strata: "only there question 7 also wants 192 cells for each".
pub fn strata_allowed(table: &[u8]) -> bool {
    table.len() >= strata::TABLE_BYTES
}

/// "8 at most 4,096 nodes?"
pub fn nodes_allowed(nodes: &[crate::tree::Node]) -> bool {
    nodes.len() <= MOST_NODES
}

/// "21, start plus length at most the lent string's length". The sum of any two numbers, as it is.
pub fn range_allowed(string: &[u8], start: u64, length: u64) -> bool {
    u128::from(start) + u128::from(length) <= string.len() as u128
}

/// "22, answer fits the lent table"
pub fn answer_allowed(crossed: &[Crossed], table: &[u8]) -> bool {
    crossed.len() * crossed::ENTRY_BYTES <= table.len()
}

/// "24, w 2 to 12, h 1 to 32,768 and n at most 65,536". n as it is, any number of 64 bits.
pub fn cutting_allowed(n: u64, w: u64, h: u64) -> bool {
    (2..=12).contains(&w) && (1..=MOST_DISTANCE).contains(&h) && n <= MOST_BYTES as u64
}
