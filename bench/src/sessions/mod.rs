//! What the calls of a session cost: a table in markdown, the whole session and a look-up in sentences.
//!
//! A cost is given in microseconds and in plain FNV-1a passes over 64 KiB, timed in the same run.

pub mod ends;
mod measure;
mod walk;

use crate::pass::cells;
use measure::{look_up, row, Row, SESSIONS};

/// Measures and prints.
pub fn run() {
    let rows: Vec<Row> = SESSIONS.iter().map(row).collect();
    println!();
    println!(
        "Time of the calls of a session with q = 64 over strings of 64 KiB, one byte of which is"
    );
    println!("another, in microseconds, and in FNV-1a passes over 64 KiB.");
    println!();
    println!("| w p L M | string | call | µs | passes |");
    println!("|---|---|---|---:|---:|");
    for row in &rows {
        for (call, cost) in &row.calls {
            println!(
                "| {} | {} | {call} | {} |",
                row.settings,
                row.string,
                cells(cost)
            );
        }
        let all = format!("all calls, {} replies", row.steps);
        println!(
            "| {} | {} | {all} | {} |",
            row.settings,
            row.string,
            cells(&row.total)
        );
    }
    println!();
    let slowest = rows
        .iter()
        .max_by(|a, b| a.total.passes.total_cmp(&b.total.passes));
    if let Some(row) = slowest {
        println!(
            "The slowest session takes {:.1} ms, {:.1} FNV-1a passes over 64 KiB ({}, {}).",
            row.total.microseconds / 1e3,
            row.total.passes,
            row.settings,
            row.string
        );
    }
    let [with_nodes, without] = look_up();
    println!(
        "A look-up that misses in 4,096 nodes takes {:.1} µs, {:.3} FNV-1a passes over 64 KiB: a call with it {:.1} µs, without nodes {:.1}.",
        with_nodes.microseconds - without.microseconds,
        with_nodes.passes - without.passes,
        with_nodes.microseconds,
        without.microseconds
    );
}
