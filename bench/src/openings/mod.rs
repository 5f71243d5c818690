//! What `rcds_sketch_open` costs: a table in markdown, and the slowest in two sentences.
//!
//! A cost is given in microseconds and in plain FNV-1a passes over 64 KiB, timed in the same run. The
//! shingle table is copied before each call, because an opened sketch changes it; that counts.

mod measure;
mod sketches;

use crate::pass::cells;
use measure::{row, Row};
use reference::rcds::ACCEPTED;

/// Measures and prints.
pub fn run() {
    let rows: Vec<Row> = sketches::all().iter().map(row).collect();
    println!();
    println!("Time of one opening in microseconds, and in FNV-1a passes over 64 KiB.");
    println!();
    println!("| sketch and list | width | own list | taken | answer | opening, µs | passes |");
    println!("|---|---:|---:|---:|---:|---:|---:|");
    for row in &rows {
        let answer = match row.answer.checked_sub(ACCEPTED) {
            Some(list) => format!("{list} shingles"),
            None => format!("refused by {}", row.answer),
        };
        println!(
            "| {} | {} | {} | {} | {answer} | {} |",
            row.name,
            row.width,
            row.own,
            row.taken,
            cells(&row.cost)
        );
    }
    println!();
    slowest(&rows, true, "over a sorted list");
    slowest(
        &rows,
        false,
        "over a list in another order, which no setup leaves,",
    );
}

/// The slowest of the rows whose lists are sorted, or of the others, in a sentence.
fn slowest(rows: &[Row], sorted: bool, which: &str) {
    let rows = rows.iter().filter(|row| row.sorted == sorted);
    if let Some(row) = rows.max_by(|a, b| a.cost.passes.total_cmp(&b.cost.passes)) {
        println!(
            "The slowest opening {which} takes {:.1} ms, {:.1} FNV-1a passes over 64 KiB ({}).",
            row.cost.microseconds / 1e3,
            row.cost.passes,
            row.name
        );
    }
}
