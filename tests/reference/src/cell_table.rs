//! The cell table: the cells of a sketch as bytes.

use crate::row::number;
use crate::sketch::Cell;

/// "A cell has five sums, each modulo 2^64", 8 bytes each.
pub const CELL_BYTES: usize = 40;

/// A cell's "five sums, each modulo 2^64: number of shingles, previous ids, own ids, tails, F(3)".
///
/// In this order, each a row of 64 bits, most significant byte first.
pub fn bytes(cell: &Cell) -> Vec<u8> {
    let mut bytes = Vec::new();
    for sum in cell {
        bytes.extend(sum.to_be_bytes());
    }
    bytes
}

/// "entries past the last used are zero"
///
/// The cells in order from the first byte on, and zero in every byte lent after them. For a table
/// long enough for the cells.
pub fn write(cells: &[Cell], table: &mut [u8]) {
    let mut content = Vec::new();
    for cell in cells {
        content.extend(bytes(cell));
    }
    assert!(content.len() <= table.len());
    content.resize(table.len(), 0);
    table.copy_from_slice(&content);
}

/// "The sketch has 3q cells": the first 3q of the table, read "as given".
///
/// For a table long enough for 3q cells.
pub fn read(table: &[u8], width: u64) -> Vec<Cell> {
    let mut cells = Vec::new();
    for i in 0..3 * width as usize {
        cells.push(cell(&table[CELL_BYTES * i..CELL_BYTES * (i + 1)]));
    }
    cells
}

/// The cell that 40 bytes are.
fn cell(bytes: &[u8]) -> Cell {
    std::array::from_fn(|sum| number(&bytes[8 * sum..8 * sum + 8]))
}
