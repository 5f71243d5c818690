//! Strata: how rough the estimate is, which width to choose by it, and what a table of strata holds.

mod choice;
mod files;
mod lists;
mod packed;
mod pair;
mod rough;

/// The columns that hold words; all others hold numbers.
const WORDS: [&str; 2] = ["change", "content"];

/// Prints a table in markdown.
fn print(heads: &[&str], rows: &[String]) {
    let rule = heads.iter().map(|head| match WORDS.contains(head) {
        true => "---|",
        false => "---:|",
    });
    println!();
    println!("| {} |", heads.join(" | "));
    println!("|{}", rule.collect::<String>());
    for row in rows {
        println!("| {row} |");
    }
}

/// Measures and prints.
pub fn run() {
    lists::run();
    files::run();
}
