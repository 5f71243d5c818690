//! Which widths open how many differences: random shingles, and one byte changed in files.

use crate::calls::{sketch_open, Settings};
use crate::session::run as session;
use crate::settings::recommended;
use crate::strings::{pair, Random};

const WIDTHS: [u64; 20] = [
    5, 7, 9, 11, 13, 15, 16, 17, 19, 23, 27, 31, 32, 33, 35, 43, 53, 61, 63, 64,
];

/// How many shingles differ, half of them at each end.
const DIFFERENCES: [usize; 9] = [6, 10, 14, 18, 24, 32, 48, 64, 96];

const TRIALS: u64 = 1_000;
const FILES: u64 = 60;
/// L of the random lists.
pub const LEVELS: u64 = 3;

/// FNV-1a of a byte and a shingle's 20 bytes.
fn hash(number: u8, shingle: &[u64; 3]) -> u64 {
    let [previous, own, tail] = shingle;
    let rest = previous
        .to_be_bytes()
        .into_iter()
        .chain(own.to_be_bytes())
        .chain((*tail as u32).to_be_bytes());
    std::iter::once(number)
        .chain(rest)
        .fold(14_695_981_039_346_656_037, |hash: u64, byte| {
            (hash ^ u64::from(byte)).wrapping_mul(1_099_511_628_211)
        })
}

/// The cell table of a list.
pub fn cells(width: u64, list: &[[u64; 3]]) -> Vec<u8> {
    let mut sums = vec![0u64; 15 * width as usize];
    for shingle in list {
        let [previous, own, tail] = *shingle;
        let values = [1, previous, own, tail, hash(3, shingle)];
        for j in 0..3u8 {
            let cell = u64::from(j) * width + hash(j, shingle) % width;
            for (m, value) in values.iter().enumerate() {
                let sum = &mut sums[5 * cell as usize + m];
                *sum = sum.wrapping_add(*value);
            }
        }
    }
    sums.iter().flat_map(|sum| sum.to_be_bytes()).collect()
}

/// A shingle table that begins with a list.
pub fn table(list: &[[u64; 3]]) -> Vec<u8> {
    let mut bytes: Vec<u8> = list
        .iter()
        .flatten()
        .flat_map(|row| row.to_be_bytes())
        .collect();
    bytes.resize(98_304, 0);
    bytes
}

/// So many random shingles of levels 1 to L and count 1, sorted.
pub fn shingles(random: &mut Random, number: usize) -> Vec<[u64; 3]> {
    let mut list: Vec<[u64; 3]> = (0..number)
        .map(|_| {
            let level = 1 + random.below(LEVELS as usize) as u64;
            [random.next(), random.next(), level * 65_536 + 1]
        })
        .collect();
    sort(&mut list);
    list
}

/// Sorts by level, previous id and own id.
pub fn sort(list: &mut [[u64; 3]]) {
    list.sort_by_key(|[previous, own, tail]| (tail >> 16, *previous, *own));
}

/// Whether a sketch over random differences opens, and whether to the sender's list.
fn opens(width: u64, differences: usize, random: &mut Random) -> (bool, bool) {
    let theirs = shingles(random, differences / 2);
    let own = shingles(random, differences - differences / 2);
    let mut list = table(&own);
    let answer = sketch_open(
        LEVELS,
        width,
        &cells(width, &theirs),
        &cells(width, &own),
        &mut list,
    );
    (answer.is_ok(), answer.is_ok() && list == table(&theirs))
}

/// Sketches over random differences that open, and those that open to another list than the sender's.
fn of_random(width: u64, differences: usize) -> (u64, u64) {
    let mut random = Random::new(width * 1_000 + differences as u64);
    let (mut opened, mut wrong) = (0, 0);
    for _ in 0..TRIALS {
        let (open, right) = opens(width, differences, &mut random);
        opened += u64::from(open);
        wrong += u64::from(open && !right);
    }
    (opened, wrong)
}

/// One pair's count goes from 1 to `count` and so many other pairs are new: sketches that open, and
/// those that open to another list than the sender's.
fn counted(width: u64, count: u64, new: usize, random: &mut Random) -> (u64, u64) {
    let (mut opened, mut wrong) = (0, 0);
    for _ in 0..TRIALS {
        let own = shingles(random, 1);
        let [previous, id, tail] = own[0];
        let mut theirs = shingles(random, new);
        theirs.push([previous, id, tail - 1 + count]);
        sort(&mut theirs);
        let mut list = table(&own);
        let (a, b) = (cells(width, &theirs), cells(width, &own));
        if sketch_open(LEVELS, width, &a, &b, &mut list).is_ok() {
            opened += 1;
            wrong += u64::from(list != table(&theirs));
        }
    }
    (opened, wrong)
}

/// Prints what changed counts do to narrow sketches and to those of a power of two.
fn print_counted() {
    println!();
    println!("A pair's count changes from 1 to c and one pair is new; sketches of {TRIALS} that open, and how many");
    println!("of these to another list than the sender's.");
    println!();
    println!("| q | c | open | wrong |");
    println!("|---:|---:|---:|---:|");
    let narrow = [1, 2, 3, 4, 5, 6, 7, 9, 11, 17].map(|width| (width, 2));
    let apart = [(16, 17), (17, 18), (32, 33), (33, 34), (64, 65), (61, 62)];
    for (width, count) in narrow.into_iter().chain(apart) {
        let mut random = Random::new(1_000_000 + width * 1_000 + count);
        let (opened, wrong) = counted(width, count, 1, &mut random);
        println!("| {width} | {count} | {opened} | {wrong} |");
    }
}

/// The levels at which a pair stands twice: a first child that is not cut has its parent's pair.
const TWICE: [[u64; 2]; 6] = [[0, 1], [0, 2], [0, 3], [1, 2], [1, 3], [2, 3]];

/// How many sketches open where one pair is new at two levels.
fn twice(width: u64, levels: [u64; 2]) -> usize {
    let mut random = Random::new(2_000_000 + width * 1_000 + 10 * levels[0] + levels[1]);
    let opens = |_: &u64| {
        let id = random.next();
        let theirs = cells(width, &levels.map(|level| [0, id, level * 65_536 + 1]));
        sketch_open(LEVELS, width, &theirs, &cells(width, &[]), &mut table(&[])).is_ok()
    };
    (0..TRIALS).filter(opens).count()
}

/// Prints which widths open a pair that is new at two levels.
fn print_twice() {
    println!();
    println!("A first pair is new at two levels; sketches of {TRIALS} that open, by the levels.");
    println!();
    let heads = TWICE.map(|[a, b]| format!("{a} and {b}"));
    println!("| q | {} |", heads.join(" | "));
    println!("|---:|{}", "---:|".repeat(TWICE.len()));
    for width in WIDTHS {
        let counts = TWICE.map(|levels| twice(width, levels).to_string());
        println!("| {width} | {} |", counts.join(" | "));
    }
}

/// Measures and prints.
pub fn run() {
    let mut wrong = 0;
    println!();
    println!("Sketches of {TRIALS} that open, by the number of differing shingles; sessions of {FILES} that hand");
    println!("over, one byte changed in 16 KiB of random bytes.");
    println!();
    let heads: Vec<String> = DIFFERENCES.iter().map(usize::to_string).collect();
    println!("| q | opening, bytes | {} | files |", heads.join(" | "));
    println!("|---:|---:|{}---:|", "---:|".repeat(heads.len()));
    let files: Vec<(Vec<u8>, Vec<u8>)> = (0..FILES)
        .map(|seed| pair("random", "one byte changed", 16_384, 200 + seed))
        .collect();
    for width in WIDTHS {
        let counts: Vec<String> = DIFFERENCES
            .iter()
            .map(|differences| {
                let (opened, other) = of_random(width, *differences);
                wrong += other;
                opened.to_string()
            })
            .collect();
        let [w, p, levels, nominal, _] = recommended(16).0;
        let settings = Settings([w, p, levels, nominal, width]);
        let handed = files
            .iter()
            .filter(|(string, own)| session(&settings, string, own).refused.is_none())
            .count();
        println!(
            "| {width} | {} | {} | {handed} |",
            48 + 180 * width,
            counts.join(" | ")
        );
    }
    println!();
    println!("Opened to another list than the sender's: {wrong}.");
    print_counted();
    print_twice();
}
