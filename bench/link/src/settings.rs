//! Settings: which are recommended for a size, how many shingles a change makes differ, and what
//! other widths and other settings cost.

use crate::calls::{sender, Settings};
use crate::pairs::{outcome, SIZES};
use crate::session::{run as session, Session};
use crate::strings::{pair, CHANGES, CONTENTS};
use std::collections::HashSet;
use std::ops::Range;

/// w, p, L, M and q for strings of about so many KiB.
pub fn recommended(size: usize) -> Settings {
    Settings(match size {
        4 => [12, 8, 1, 1_024, 7],
        16 => [12, 7, 2, 5_120, 23],
        _ => [12, 8, 3, 32_768, 43],
    })
}

/// Widths that are tried with the recommended w, p, L and M.
const WIDTHS: [u64; 9] = [5, 7, 11, 17, 23, 33, 43, 53, 61];

/// Other w, p, L and M that are tried with the recommended width: those of other sizes, those that were recommended by rule 1, and some
/// of few values.
const OTHERS: [[u64; 4]; 9] = [
    [4, 4, 1, 1_024],
    [8, 8, 1, 1_024],
    [12, 8, 1, 1_024],
    [4, 4, 2, 4_096],
    [4, 8, 2, 4_096],
    [12, 7, 2, 5_120],
    [12, 8, 2, 16_384],
    [8, 7, 3, 32_768],
    [12, 8, 3, 32_768],
];

/// The changes that are tried: neither equal nor different strings.
pub const TRIED: Range<usize> = 1..7;

/// Seeds of the pairs, others than those of the group `pairs`.
pub const SEEDS: Range<u64> = 100..103;

pub type Pair = (Vec<u8>, Vec<u8>);

/// The pairs of a size and a change, of every content.
fn pairs_of(size: usize, change: &str, seeds: Range<u64>) -> Vec<Pair> {
    let of_content = |content: &&str| -> Vec<Pair> {
        let seeds = seeds.clone();
        seeds
            .map(|seed| pair(content, change, size * 1_024, seed))
            .collect()
    };
    CONTENTS.iter().flat_map(of_content).collect()
}

/// The pairs of a size, by the changes that are tried.
pub fn by_change(size: usize, seeds: Range<u64>) -> Vec<Vec<Pair>> {
    CHANGES[TRIED]
        .iter()
        .map(|change| pairs_of(size, change, seeds.clone()))
        .collect()
}

/// A row of eight bytes as a number.
fn number(row: &[u8]) -> u64 {
    row.iter().fold(0, |sum, byte| sum << 8 | u64::from(*byte))
}

/// The list of a shingle table, up to its first count 0.
pub fn list(table: &[u8]) -> Vec<[u64; 3]> {
    let entries = table.chunks(24).take_while(|entry| entry[22..] != [0, 0]);
    let shingle = |entry: &[u8]| [0, 8, 16].map(|at| number(&entry[at..at + 8]));
    entries.map(shingle).collect()
}

/// The shingles that the sender's string has and the own has not, and the reverse; nothing where a tree is refused.
pub fn differences(settings: &Settings, (string, own): &Pair) -> Option<[Vec<[u64; 3]>; 2]> {
    let (a, b) = (sender(settings, string).ok()?, sender(settings, own).ok()?);
    let (a, b) = (list(&a.shingles), list(&b.shingles));
    let lacking = |x: &[[u64; 3]], y: &[[u64; 3]]| {
        let y: HashSet<&[u64; 3]> = y.iter().collect();
        let lacks = |shingle: &&[u64; 3]| !y.contains(shingle);
        x.iter().filter(lacks).copied().collect()
    };
    Some([lacking(&a, &b), lacking(&b, &a)])
}

/// How many shingles each change makes differ, with the recommended settings.
fn print_differences() {
    println!();
    println!("Shingles that differ: fewest, middle and most of 12 pairs.");
    println!();
    println!("| KiB | w p L M | {} |", CHANGES[TRIED].join(" | "));
    println!("|---:|---|{}", "---:|".repeat(TRIED.len()));
    for size in SIZES {
        let settings = recommended(size);
        let cells: Vec<String> = CHANGES[TRIED]
            .iter()
            .map(|change| {
                let mut counts: Vec<usize> = pairs_of(size, change, SEEDS)
                    .iter()
                    .filter_map(|pair| differences(&settings, pair))
                    .map(|[new, gone]| new.len() + gone.len())
                    .collect();
                counts.sort_unstable();
                let at = |place: usize| counts.get(place).map_or(0, |count| *count);
                let last = counts.len().saturating_sub(1);
                format!("{}, {}, {}", at(0), at(counts.len() / 2), at(last))
            })
            .collect();
        let [w, p, levels, nominal, _] = settings.0;
        println!(
            "| {size} | {w} {p} {levels} {nominal} | {} |",
            cells.join(" | ")
        );
    }
}

/// Bytes of the mean session for each change, the fallback included, and how many handed over.
fn print_row(size: usize, settings: &Settings, pairs: &[Vec<Pair>]) {
    let cells: Vec<String> = pairs
        .iter()
        .map(|pairs| {
            let sessions: Vec<Session> = pairs
                .iter()
                .map(|(string, own)| session(settings, string, own))
                .collect();
            let bytes: usize = sessions.iter().map(Session::bytes).sum();
            format!("{} ({})", bytes / sessions.len(), outcome(&sessions))
        })
        .collect();
    println!("| {size} | {settings} | {} |", cells.join(" | "));
}

/// Measures and prints.
pub fn run() {
    print_differences();
    println!();
    println!("Mean bytes of a session, the whole string included where it was refused, and how many of 12");
    println!("handed over.");
    println!();
    println!("| KiB | w p L M q | {} |", CHANGES[TRIED].join(" | "));
    println!("|---:|---|{}", "---:|".repeat(TRIED.len()));
    for size in SIZES {
        let pairs = by_change(size, SEEDS);
        let [w, p, levels, nominal, width] = recommended(size).0;
        for width in WIDTHS {
            print_row(size, &Settings([w, p, levels, nominal, width]), &pairs);
        }
        for [w, p, levels, nominal] in OTHERS {
            if [w, p, levels, nominal] != recommended(size).0[..4] {
                print_row(size, &Settings([w, p, levels, nominal, width]), &pairs);
            }
        }
    }
}
