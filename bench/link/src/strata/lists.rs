//! Pairs of random lists: estimates, and widths chosen by them.

use super::pair::Pair;
use super::{choice, print, rough};
use crate::calls::{receiver, sender, Settings};
use crate::strings::Random;
use crate::widths::{shingles, sort, table, LEVELS};

/// How many shingles differ, half of them at each end.
const DIFFERENCES: [usize; 17] = [
    0, 1, 2, 4, 6, 10, 14, 18, 24, 32, 48, 64, 96, 128, 256, 512, 1_000,
];

/// How many shingles both lists have.
const COMMON: usize = 500;

/// How many pairs stand behind a row.
const PAIRS: usize = 1_000;

/// The seed of a row is this and its number of differing shingles.
const SEED: u64 = 2_000_000;

/// Pairs of lists with so many differing shingles. The ends are set up over no bytes, and the lists put in
/// their shingle tables.
fn pairs(differences: usize) -> Vec<Pair> {
    let mut random = Random::new(SEED + differences as u64);
    let settings = Settings([4, 8, LEVELS, 4_096, 1]);
    let mut sender = sender(&settings, &[]).expect("a sender");
    let mut receiver = receiver(&settings, 1, &[]).expect("a receiver");
    let half = differences / 2;
    let mut one = || {
        let common = shingles(&mut random, COMMON);
        for (end, more) in [(&mut sender, half), (&mut receiver, differences - half)] {
            let mut list = common.clone();
            list.extend(shingles(&mut random, more));
            sort(&mut list);
            end.shingles = table(&list);
        }
        Pair::new(LEVELS, &sender, &receiver)
    };
    (0..PAIRS).map(|_| one()).collect()
}

/// Measures and prints.
pub fn run() {
    let (mut estimates, mut widths) = (Vec::new(), Vec::new());
    for differences in DIFFERENCES {
        let pairs = pairs(differences);
        estimates.push(format!("{differences} | {}", rough::cells(&pairs)));
        widths.push(format!("{differences} | {}", choice::cells(&pairs)));
    }
    println!();
    println!("Estimates of {PAIRS} pairs of random lists, by the number of differing shingles.");
    print(&[&["differ"], &rough::HEADS[..]].concat(), &estimates);
    println!();
    println!("Widths chosen by the estimate, of the same pairs.");
    print(&[&["differ"], &choice::HEADS[..]].concat(), &widths);
}
