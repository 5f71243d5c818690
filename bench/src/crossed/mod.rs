//! What `rcds_crossed` costs beside `rcds_tree`: a table in markdown, and the dearest in a sentence.
//!
//! The ratio is that of a call over a tree's node table to cutting the same string into that tree, both
//! timed in one run and counted in plain FNV-1a passes over 64 KiB.

mod measure;

use crate::pass::cells;
use measure::{rows, Row, TREES};

/// The call's cost divided by that of cutting.
fn ratio(row: &Row) -> f64 {
    row.call.passes / row.cutting.passes
}

/// Measures and prints.
pub fn run() {
    let rows: Vec<Row> = TREES.iter().flat_map(rows).collect();
    println!();
    println!("Time of one call and of cutting the same string with `rcds_tree`, in microseconds and in FNV-1a passes over 64 KiB,");
    println!("and the first divided by the second.");
    println!();
    println!(
        "| w p L M, string | nodes | range | crossed | call, µs | passes | cutting, µs | passes | call / cutting |"
    );
    println!("|---|---:|---|---:|---:|---:|---:|---:|---:|");
    for row in &rows {
        println!(
            "| {} | {} | {} | {} | {} | {} | {:.4} |",
            row.tree,
            row.nodes,
            row.range,
            row.crossed,
            cells(&row.call),
            cells(&row.cutting),
            ratio(row)
        );
    }
    println!();
    let dearest = rows.iter().max_by(|a, b| ratio(a).total_cmp(&ratio(b)));
    if let Some(row) = dearest {
        println!(
            "A call takes at most {:.4} times as long as cutting the string ({}, {}): {:.1} µs.",
            ratio(row),
            row.tree,
            row.range,
            row.call.microseconds
        );
    }
}
