//! What `rcds_sender_setup` costs: a table in markdown, and the slowest in a sentence.
//!
//! A cost is given in microseconds and in plain FNV-1a passes over 64 KiB, timed in the same run.

mod measure;

use crate::pass::cells;
use measure::{row, Row, SETUPS};
use reference::rcds::ACCEPTED;

/// Measures and prints.
pub fn run() {
    let rows: Vec<Row> = SETUPS.iter().map(row).collect();
    println!();
    println!("Time of one setup with q = 64 in microseconds, and in FNV-1a passes over 64 KiB.");
    println!();
    println!("| w p L M | string | nodes | shingles | setup, µs | passes |");
    println!("|---|---|---:|---:|---:|---:|");
    for row in &rows {
        let nodes = match row.answer.checked_sub(ACCEPTED) {
            Some(nodes) => nodes.to_string(),
            None => format!("refused by {}", row.answer),
        };
        let cost = cells(&row.cost);
        println!(
            "| {} | {} | {nodes} | {} | {cost} |",
            row.settings, row.string, row.shingles
        );
    }
    println!();
    let slowest = rows
        .iter()
        .max_by(|a, b| a.cost.passes.total_cmp(&b.cost.passes));
    if let Some(row) = slowest {
        println!(
            "The slowest setup takes {:.1} ms, {:.1} FNV-1a passes over 64 KiB ({}, {}).",
            row.cost.microseconds / 1e3,
            row.cost.passes,
            row.settings,
            row.string
        );
    }
}
