//! What `rcds_tree` costs: a table in markdown, and the worst figures in sentences.
//!
//! A cost is counted in plain FNV-1a passes over the same bytes. All figures are ratios of such
//! costs.

mod growth;
mod hostile;
mod measure;
mod runs;
mod samples;
mod strings;
mod table;
mod windows;

/// Measures and prints.
pub fn run() {
    let strings = strings::all();
    let rows: Vec<measure::Row> = table::settings()
        .iter()
        .map(|settings| measure::row(settings, &strings, true))
        .collect();
    table::print(&rows);
    table::print_worst(&rows);
    runs::run();
    hostile::run();
}

/// Measures how the time grows with the string under many more settings, and prints a sentence.
pub fn run_growth() {
    let strings = strings::all();
    let rows: Vec<measure::Row> = growth::settings()
        .iter()
        .map(|settings| measure::row(settings, &strings, false))
        .collect();
    growth::print_above(&rows);
}

/// Measures what a running value saves, and prints a table.
pub fn run_windows() {
    windows::run();
}

/// Counts the cuts of twelve-bit samples by rules 2 and 3, and prints tables.
pub fn run_samples() {
    samples::run();
}
