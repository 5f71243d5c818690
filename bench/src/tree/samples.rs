//! How many cuts twelve-bit samples have by rules 2 and 3: tables in markdown.
//!
//! By rule 2 the digits of a window are its bytes, by rule 3 their entries (document 02, request 12). A plain cutter takes the digits;
//! the tree that it gives by rule 3 is compared with the library's.

use super::growth::name;
use crate::cut::cut;
use reference::node_table;
use reference::partition::{candidate_range, is_candidate, slide, Block, MOST_CUTS};
use reference::rcds::ACCEPTED;
use reference::settings::{Rule, Settings};
use reference::spread::{entry, PRIME};
use reference::vectors::{string, triangle};
use std::collections::HashSet;

/// What stands for a byte where a window is read.
type Digit = fn(u8) -> u64;

/// The digits of rule 2 and of rule 3, the library's.
const DIGITS: [Digit; 2] = [|byte| u64::from(byte), entry];
const LIBRARYS: usize = 1;

/// The guide's settings for 4, 16 and 64 KiB.
const RECOMMENDED: [([u64; 4], usize); 3] = [
    ([12, 8, 1, 1_024], 4),
    ([12, 7, 2, 5_120], 16),
    ([12, 8, 3, 32_768], 64),
];

/// Shorter windows, which hold fewer samples: with the guide's distances for 64 KiB, and with a quarter of them.
const SHORTER: [([u64; 4], usize); 5] = [
    ([2, 8, 3, 32_768], 64),
    ([2, 8, 3, 8_192], 64),
    ([4, 8, 3, 32_768], 64),
    ([4, 8, 3, 8_192], 64),
    ([8, 8, 3, 32_768], 64),
];

/// The contents: six kinds of samples, and random bytes.
const CONTENTS: [&str; 7] = [
    "triangle",
    "slow ramp",
    "sine with noise",
    "random walk",
    "one high byte",
    "quiet",
    "random bytes",
];

/// How many strings stand behind a row.
const STRINGS: usize = 16;

/// The middle of twelve bits, and their highest value.
const MIDDLE: i64 = 2_048;
const HIGHEST: i64 = 4_095;

/// How many samples of the ramp have one level.
const SAMPLES_A_STEP: i64 = 8;

/// How far noise, and a step of the walk, go at most; and the noise of a quiet channel.
const NOISE: i64 = 3;
const LEAST_NOISE: i64 = 1;

/// Samples of one turn of the sine, and its height.
const TURN: f64 = 1_000.0;
const HEIGHT: f64 = 1_500.0;

/// Each string of a content begins so many samples further on, and those of few levels so many levels higher.
const FURTHER_ON: usize = 1_009;
const HIGHER: i64 = 97;

/// A number from `-most` to `most`, from a random byte.
fn noise(random: u8, most: i64) -> i64 {
    i64::from(random) % (2 * most + 1) - most
}

/// Sample k of a content's string, after the one before it.
fn sample(content: &str, number: usize, k: usize, before: i64, random: u8) -> i64 {
    let further = k + FURTHER_ON * number;
    match content {
        // From 0 to 4,000 and back in 1,000 samples, and a level higher with each string.
        "triangle" => triangle(further) as i64 + number as i64,
        "slow ramp" => (further as i64 / SAMPLES_A_STEP) % (HIGHEST + 1),
        "sine with noise" => {
            let turns = further as f64 / TURN;
            let sine = HEIGHT * (turns * std::f64::consts::TAU).sin();
            MIDDLE + sine.round() as i64 + noise(random, NOISE)
        }
        "random walk" => (before + noise(random, NOISE)).clamp(0, HIGHEST),
        "one high byte" => i64::from(u16::from_be_bytes([number as u8, random])),
        "quiet" => MIDDLE + HIGHER * number as i64 + noise(random, LEAST_NOISE),
        _ => panic!("no samples {content}"),
    }
}

/// The strings of a content: samples of 12 bits in 16, the high byte first.
fn strings(content: &str, length: usize) -> Vec<Vec<u8>> {
    let random = string(2, STRINGS * length);
    let of = |(number, random): (usize, &[u8])| {
        if content == "random bytes" {
            return random.to_vec();
        }
        let mut level = MIDDLE;
        let mut bytes = Vec::with_capacity(length);
        for (k, &random) in random[..length / 2].iter().enumerate() {
            level = sample(content, number, k, level, random);
            bytes.extend((level as u16).to_be_bytes());
        }
        bytes
    };
    random.chunks_exact(length).enumerate().map(of).collect()
}

/// The remainders of all windows, of the digits.
fn remainders(bytes: &[u8], window: usize, digit: Digit) -> Vec<u64> {
    let mut value = 0;
    let mut remainders = Vec::with_capacity(bytes.len());
    for (i, &byte) in bytes.iter().enumerate() {
        let leaves = i.checked_sub(window).map_or(0, |first| digit(bytes[first]));
        value = slide(window, value, leaves, digit(byte));
        if i + 1 >= window {
            remainders.push(value);
        }
    }
    remainders
}

/// The values of all windows by a level's rule.
fn values(bytes: &[u8], rule: &Rule, digit: Digit) -> Vec<u64> {
    let remainders = remainders(bytes, rule.window, digit);
    remainders.iter().map(|one| one % rule.modulus).collect()
}

/// The blocks of a node.
fn blocks(string: &[u8], node: &Block, rule: &Rule, digit: Digit) -> Vec<Block> {
    let bytes = &string[node.start..node.start + node.length];
    let values = values(bytes, rule, digit);
    let places = candidate_range(bytes, rule).map(|i| i as usize);
    let cuts = places.filter(|i| is_candidate(&values, *i, rule));
    let starts: Vec<usize> = std::iter::once(0).chain(cuts.take(MOST_CUTS)).collect();
    let ends = starts[1..].iter().copied().chain([node.length]);
    let block = |(start, end): (&usize, usize)| Block {
        start: node.start + start,
        length: end - start,
    };
    starts.iter().zip(ends).map(block).collect()
}

/// The blocks of each level, from the left; the root's level first.
fn levels(settings: &Settings, string: &[u8], digit: Digit) -> Vec<Vec<Block>> {
    let root = Block {
        start: 0,
        length: string.len(),
    };
    let mut levels = vec![vec![root]];
    for level in 1..=settings.levels {
        let rule = settings.rule(level);
        let above = levels.last().expect("the root's level");
        let below = above
            .iter()
            .flat_map(|node| blocks(string, node, &rule, digit));
        levels.push(below.collect());
    }
    levels
}

/// The blocks of each level of the library's tree.
fn librarys(settings: &Settings, string: &[u8]) -> Vec<Vec<Block>> {
    let mut table = vec![0; 65_536];
    let answer = cut(settings, string, &mut table);
    assert!(answer >= ACCEPTED, "refused by {answer}: {settings:?}");
    let nodes = node_table::read(&table);
    let of_level = |level: u64| {
        let nodes = nodes.iter().filter(move |node| node.level == level);
        let block = |node: &reference::tree::Node| Block {
            start: node.start,
            length: node.length,
        };
        nodes.map(block).collect()
    };
    (0..=settings.levels).map(of_level).collect()
}

fn distinct(values: &[u64]) -> f64 {
    values.iter().collect::<HashSet<_>>().len() as f64
}

/// How many of 100 windows have a remainder in the fullest sixteenth of all numbers below 65,521.
fn fullest(remainders: &[u64]) -> f64 {
    const PARTS: u64 = 16;
    let part = |remainder: &u64| remainder * PARTS / PRIME;
    let of = |k: u64| remainders.iter().filter(|one| part(one) == k).count();
    let most = (0..PARTS).map(of).max().expect("a part");
    100.0 * most as f64 / remainders.len() as f64
}

/// What is counted of a string by one rule.
struct Counted {
    remainders: f64,
    fullest: f64,
    values: f64,
    /// The blocks of each level from 1 on.
    blocks: Vec<f64>,
    longest: usize,
}

fn count(settings: &Settings, string: &[u8], digit: Digit, levels: &[Vec<Block>]) -> Counted {
    let rule = settings.rule(1);
    let remainders = remainders(string, rule.window, digit);
    let last = levels.last().expect("the last level");
    let longest = last.iter().map(|block| block.length).max();
    Counted {
        remainders: distinct(&remainders),
        fullest: fullest(&remainders),
        values: distinct(&values(string, &rule, digit)),
        blocks: levels[1..].iter().map(|of| of.len() as f64).collect(),
        longest: longest.expect("a block"),
    }
}

/// A string's counts by both rules. A tree by rule 3 that is not the library's stops the run.
fn by_both(settings: &Settings, string: &[u8]) -> [Counted; 2] {
    let trees = DIGITS.map(|digit| levels(settings, string, digit));
    let equal = trees[LIBRARYS] == librarys(settings, string);
    assert!(equal, "another tree: {settings:?}");
    [0, 1].map(|rule| count(settings, string, DIGITS[rule], &trees[rule]))
}

/// The mean of a number over the strings.
fn mean(counts: &[&Counted], number: impl Fn(&Counted) -> f64) -> f64 {
    counts.iter().map(|one| number(one)).sum::<f64>() / counts.len() as f64
}

/// The cells of all strings of a row by one rule.
fn cells(counts: &[&Counted], length: usize) -> [String; 6] {
    let levels = counts[0].blocks.len();
    let blocks: Vec<f64> = (0..levels)
        .map(|level| mean(counts, |one| one.blocks[level]))
        .collect();
    let shown: Vec<String> = blocks.iter().map(|mean| format!("{mean:.1}")).collect();
    let longest = counts.iter().map(|one| one.longest).max();
    [
        format!("{:.0}", mean(counts, |one| one.remainders)),
        format!("{:.1}", mean(counts, |one| one.fullest)),
        format!("{:.0}", mean(counts, |one| one.values)),
        shown.join(" "),
        format!("{:.0}", length as f64 / blocks[levels - 1]),
        longest.expect("a string").to_string(),
    ]
}

/// Counts the strings of a content by both rules, and prints their row of the table.
fn print_row(settings: &Settings, size: usize, content: &str) {
    let length = size * 1_024;
    let counts: Vec<[Counted; 2]> = strings(content, length)
        .iter()
        .map(|string| by_both(settings, string))
        .collect();
    let of_rule = |rule: usize| {
        let counts: Vec<&Counted> = counts.iter().map(|both| &both[rule]).collect();
        cells(&counts, length)
    };
    let (two, three) = (of_rule(0), of_rule(1));
    let both: Vec<String> = two
        .iter()
        .zip(&three)
        .map(|(two, three)| format!("{two} | {three}"))
        .collect();
    let name = name(settings);
    println!("| {size} | {name} | {content} | {} |", both.join(" | "));
}

fn print_table(trees: &[([u64; 4], usize)]) {
    println!();
    let heads = [
        "remainders",
        "fullest sixteenth, %",
        "values at level 1",
        "blocks of each level",
        "mean block",
        "longest block",
    ];
    let heads = heads.map(|head| format!("{head}: 2 | 3")).join(" | ");
    println!("| KiB | w p L M | content | {heads} |");
    println!("|---:|---|---|{}", "---:|".repeat(12));
    for ([window, fan_out, levels, nominal], size) in trees {
        let settings = Settings {
            window: *window,
            fan_out: *fan_out,
            levels: *levels,
            nominal: *nominal,
        };
        for content in CONTENTS {
            print_row(&settings, *size, content);
        }
    }
}

/// Counts and prints.
pub fn run() {
    println!();
    println!("Twelve-bit samples by rules 2 and 3, means of {STRINGS} strings a row: distinct remainders modulo 65,521 of all windows, and how");
    println!("many of 100 lie in the fullest sixteenth; distinct values at level 1; blocks of each level; mean and longest block of the last.");
    print_table(&RECOMMENDED);
    print_table(&SHORTER);
}
