//! What `rcds_trail_number` and `rcds_trail_order` cost: a table in markdown, and the slowest and
//! the typical figures in two sentences.
//!
//! A cost is given in microseconds and in plain FNV-1a passes over 64 KiB, timed in the same run.

mod measure;
mod multisets;
mod search;
mod table;
mod typical;

/// Measures and prints.
pub fn run() {
    let mut rows: Vec<measure::Row> = multisets::all().iter().map(measure::row).collect();
    rows.extend(search::slowest());
    table::print(&rows);
    let typical = typical::all();
    table::print_typical(&typical);
    table::print_slowest(&rows);
}
