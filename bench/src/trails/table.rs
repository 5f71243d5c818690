//! What is printed of the measures.

use super::measure::Row;
use super::typical::Typical;
use crate::pass::{cells, Cost};
use reference::rcds::{count, ACCEPTED};

/// A row for each multiset.
pub fn print(rows: &[Row]) {
    println!();
    println!("Time of one call in microseconds, and in FNV-1a passes over 64 KiB: the order of a number,");
    println!("and the number of that order again.");
    println!();
    println!("| multiset | pairs | trails | number | answer | order, µs | passes | number, µs | passes |");
    println!("|---|---:|---:|---:|---:|---:|---:|---:|---:|");
    for row in rows {
        let answer = match row.answer {
            refusal if refusal < ACCEPTED => format!("refused by {refusal}"),
            _ if row.order.is_none() => "not asked".to_string(),
            answer => format!("{} ids", count(answer)),
        };
        let of = |cost: &Option<Cost>| cost.as_ref().map_or("| ".to_string(), cells);
        println!(
            "| {} | {} | {} | {} | {answer} | {} | {} |",
            row.name,
            row.ids,
            row.trails,
            row.number,
            of(&row.order),
            of(&row.back),
        );
    }
    println!();
}

/// The middle one of some costs, and the largest.
fn middle_and_largest(costs: &[Cost]) -> Option<(Cost, Cost)> {
    let mut sorted = costs.to_vec();
    sorted.sort_by(|a, b| a.microseconds.total_cmp(&b.microseconds));
    Some((*sorted.get(sorted.len() / 2)?, *sorted.last()?))
}

/// A row for each tree.
pub fn print_typical(rows: &[Typical]) {
    println!(
        "The children of a tree's nodes over 16 KiB, w p L M: the middle one and the slowest."
    );
    println!();
    println!("| tree | nodes | children, mean | only trail | above 4,095 | number, µs | passes | slowest, µs | passes | order, µs | passes | slowest, µs | passes |");
    println!("|---|---:|---:|---:|---:|---:|---:|---:|---:|---:|---:|---:|---:|");
    for row in rows {
        let of = |costs: &[Cost]| match middle_and_largest(costs) {
            Some((middle, largest)) => format!("{} | {}", cells(&middle), cells(&largest)),
            None => " | | | ".to_string(),
        };
        println!(
            "| {} | {} | {:.1} | {} | {} | {} | {} |",
            row.name,
            row.orders,
            row.children,
            row.only,
            row.above,
            of(&row.numbers),
            of(&row.back),
        );
    }
    println!();
}

/// The slowest calls, in a sentence each.
pub fn print_slowest(rows: &[Row]) {
    let orders = rows
        .iter()
        .filter_map(|row| Some((row.order.as_ref()?, row)));
    let numbers = rows
        .iter()
        .filter_map(|row| Some((row.back.as_ref()?, row)));
    let slowest = |costs: Vec<(&Cost, &Row)>, what: &str| {
        let larger = costs
            .into_iter()
            .max_by(|a, b| a.0.microseconds.total_cmp(&b.0.microseconds));
        if let Some((cost, row)) = larger {
            println!(
                "The slowest {what} takes {:.1} ms, {:.1} FNV-1a passes over 64 KiB ({}).",
                cost.microseconds / 1e3,
                cost.passes,
                row.name
            );
        }
    };
    slowest(orders.collect(), "order of a number");
    slowest(numbers.collect(), "number of an order");
}
