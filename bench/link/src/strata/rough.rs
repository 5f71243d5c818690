//! How near the estimates of some pairs are to the number of shingles that differ.

use super::pair::Pair;

/// The middle of some values.
pub fn middle(mut values: Vec<usize>) -> usize {
    values.sort_unstable();
    values[values.len() / 2]
}

/// Whether an estimate is at most so many times too small or too large.
fn within(times: usize, differences: usize, estimate: usize) -> bool {
    differences <= times * estimate && estimate <= times * differences
}

/// The heads of the columns.
pub const HEADS: [&str; 12] = [
    "0",
    "exact",
    "within two",
    "within four",
    "below half",
    "above double",
    "fewest",
    "middle",
    "most",
    "s within two",
    "s within four",
    "equal tables",
];

/// How many estimates are 0, exact and so on; fewest, middle and most; how many are near with the stand-in,
/// which makes them s; and how many pairs have equal tables.
pub fn cells(pairs: &[Pair]) -> String {
    let count = |holds: &dyn Fn(&Pair) -> bool| pairs.iter().filter(|pair| holds(pair)).count();
    let near = |times: usize, estimate: &dyn Fn(&Pair) -> usize| {
        count(&|pair| within(times, pair.differences, estimate(pair)))
    };
    let mut estimates: Vec<usize> = pairs.iter().map(|pair| pair.estimate).collect();
    estimates.sort_unstable();
    let last = estimates.len() - 1;
    let numbers = [
        count(&|pair| pair.estimate == 0),
        count(&|pair| pair.estimate == pair.differences),
        near(2, &|pair| pair.estimate),
        near(4, &|pair| pair.estimate),
        count(&|pair| 2 * pair.estimate < pair.differences),
        count(&|pair| pair.estimate > 2 * pair.differences),
        estimates[0],
        middle(estimates.clone()),
        estimates[last],
        near(2, &Pair::with_stand_in),
        near(4, &Pair::with_stand_in),
        count(&Pair::has_equal_tables),
    ];
    numbers.map(|number| number.to_string()).join(" | ")
}
