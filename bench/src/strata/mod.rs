//! What `rcds_strata_build` and `rcds_strata_estimate` cost: two tables in markdown, and the dearest of each in a
//! sentence.
//!
//! Building is compared with setting an end up over the same string, an estimate with building the own strata,
//! both timed in one run and counted in plain FNV-1a passes over 64 KiB.

mod ends;
mod forged;
mod lists;
mod measure;

use crate::pass::cells;
use lists::{of_string, ESTIMATED, LISTS};
use measure::{built, estimated, Built, Estimated};
use reference::rcds::ACCEPTED;

/// Measures and prints.
pub fn run() {
    let rows: Vec<Built> = LISTS.iter().map(built).collect();
    print_built(&rows);
    let of_strings = ESTIMATED.iter().flat_map(of_string);
    let all = of_strings.chain(forged::all());
    let rows: Vec<Estimated> = all.map(|asked| estimated(&asked)).collect();
    print_estimated(&rows);
}

fn print_built(rows: &[Built]) {
    let ratio = |row: &Built| row.building.passes / row.setup.passes;
    println!();
    println!("Time of building the strata of a string's list and of setting an end up over that string, in microseconds and in");
    println!("FNV-1a passes over 64 KiB, and the first divided by the second.");
    println!();
    println!("| w p L M, string | shingles | building, µs | passes | setup, µs | passes | building / setup |");
    println!("|---|---:|---:|---:|---:|---:|---:|");
    for row in rows {
        println!(
            "| {} | {} | {} | {} | {:.4} |",
            row.list,
            row.shingles,
            cells(&row.building),
            cells(&row.setup),
            ratio(row)
        );
    }
    println!();
    if let Some(row) = rows.iter().max_by(|a, b| ratio(a).total_cmp(&ratio(b))) {
        println!(
            "Building takes at most {:.4} times as long as the setup ({}): {:.1} µs.",
            ratio(row),
            row.list,
            row.building.microseconds
        );
    }
}

fn print_estimated(rows: &[Estimated]) {
    println!();
    println!("Time of one estimate and of building the own strata, in microseconds and in FNV-1a passes over 64 KiB, and the first");
    println!("divided by the second.");
    println!();
    println!("| lists | own list | differ | strata opened | listed | estimate | estimate, µs | passes | building, µs | passes | estimate / building |");
    println!("|---|---:|---:|---:|---:|---:|---:|---:|---:|---:|---:|");
    for row in rows {
        println!(
            "| {} | {} | {} | {} | {} | {} | {} | {} | {:.4} |",
            row.name,
            row.own,
            row.differ,
            row.opened,
            row.listed,
            row.answer - ACCEPTED,
            cells(&row.call),
            cells(&row.building),
            row.call.passes / row.building.passes
        );
    }
    println!();
    let slowest = rows
        .iter()
        .max_by(|a, b| a.call.passes.total_cmp(&b.call.passes));
    if let Some(row) = slowest {
        println!(
            "The slowest estimate takes {:.1} µs, {:.1} FNV-1a passes over 64 KiB ({}).",
            row.call.microseconds, row.call.passes, row.name
        );
    }
}
