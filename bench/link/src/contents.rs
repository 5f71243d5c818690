//! What sessions cost in the mean, content by content over many pairs; and where the run of a preallocated file is cut off from what
//! stands before it: two tables.

use crate::calls::{tree, Settings};
use crate::pairs::SIZES;
use crate::session::{run as session, Session};
use crate::settings::{recommended, TRIED};
use crate::strings::{content, filled, pair, Random, CHANGES, CONTENTS};

/// Seeds of the pairs, others than those of the groups `pairs`, `settings` and `search`.
const SEEDS: std::ops::Range<u64> = 7_000..7_100;

/// Seeds of the preallocated files.
const FILES: std::ops::Range<u64> = 9_000..9_400;

/// Settings beside the recommended ones, w, p, L, M and q: windows of 8 zeros have the value 0 at the last two levels where p is 6, so
/// that a cut often stands where a run of zeros begins. They were chosen on pairs of other seeds, 5,000 to 5,099.
const ZEROS_LEAST: [(usize, [u64; 5]); 2] =
    [(16, [8, 6, 2, 3_072, 23]), (64, [8, 6, 3, 16_384, 43])];

/// Bytes of an entry of the node table.
const ENTRY_BYTES: usize = 16;

/// Bytes of the node table.
const NODES_BYTES: usize = 65_536;

/// The recommended settings of each size, and those of zeros that have the least value.
fn all_settings() -> Vec<(usize, Settings)> {
    let least = |size: usize| ZEROS_LEAST.into_iter().filter(move |(of, _)| *of == size);
    let of_size = |size: usize| {
        let least = least(size).map(|(_, numbers)| Settings(numbers));
        std::iter::once(recommended(size))
            .chain(least)
            .map(move |settings| (size, settings))
    };
    SIZES.into_iter().flat_map(of_size).collect()
}

/// Prints the mean bytes of the sessions of a content, how many handed over, and how many of these cost more than the string.
fn print_row(size: usize, settings: &Settings, name: &str) {
    let (mut all, mut dearer) = (Vec::new(), 0);
    for change in &CHANGES[TRIED] {
        for seed in SEEDS {
            let (string, own) = pair(name, change, size * 1_024, seed);
            let one = session(settings, &string, &own);
            dearer += usize::from(one.refused.is_none() && one.bytes() > string.len());
            all.push(one);
        }
    }
    let bytes: usize = all.iter().map(Session::bytes).sum();
    let handed = all.iter().filter(|one| one.refused.is_none()).count();
    println!(
        "| {size} | {settings} | {name} | {} | {handed} | {dearer} |",
        bytes / all.len()
    );
}

/// How many bytes stand before a byte in its block of the last level.
fn before(settings: &Settings, string: &[u8], at: usize) -> usize {
    let mut nodes = vec![0; NODES_BYTES];
    let number = tree(settings, string, &mut nodes).expect("a tree that is not refused");
    let levels = settings.0[2];
    // An entry's second row: 3 bits of the level, 17 of the length, 17 of the start.
    let starts = nodes.chunks(ENTRY_BYTES).take(number).filter_map(|entry| {
        let row = entry[8..]
            .iter()
            .fold(0, |row, byte| row << 8 | u64::from(*byte));
        (row & 7 == levels).then_some((row >> 20 & 0x1_ffff) as usize)
    });
    let block = starts.filter(|start| *start <= at).max();
    at - block.expect("the first block begins at 0")
}

/// Prints in how many preallocated files a cut stands where the run of zeros begins, and how many bytes share a block with it.
fn print_run(size: usize, settings: &Settings) {
    let length = size * 1_024;
    let shared: Vec<usize> = FILES
        .map(|seed| content("preallocated", &mut Random::new(seed), length))
        .map(|string| before(settings, &string, filled("preallocated", length)))
        .collect();
    let window = settings.0[0] as usize;
    let there = shared.iter().filter(|bytes| **bytes < window).count();
    let mean = shared.iter().sum::<usize>() / shared.len();
    let most = shared.iter().max().map_or(0, |bytes| *bytes);
    println!(
        "| {size} | {settings} | {} | {there} | {mean} | {most} |",
        shared.len()
    );
}

/// Measures and prints.
pub fn run() {
    let all = all_settings();
    println!();
    println!("Mean bytes of 600 sessions, 100 of each change, the whole string included where it was refused; how many handed over, and how");
    println!("many of these cost more than the string.");
    println!();
    println!("| KiB | w p L M q | content | bytes | handed over | dearer than the string |");
    println!("|---:|---|---|---:|---:|---:|");
    for (size, settings) in &all {
        CONTENTS
            .iter()
            .for_each(|name| print_row(*size, settings, name));
    }
    println!();
    println!("Preallocated files: in how many a cut stands fewer than w bytes before the run of zeros, and how many bytes share a block of");
    println!("the last level with it.");
    println!();
    println!("| KiB | w p L M q | files | cut there | bytes before the run, mean | most |");
    println!("|---:|---|---:|---:|---:|---:|");
    for (size, settings) in &all {
        print_run(*size, settings);
    }
}
