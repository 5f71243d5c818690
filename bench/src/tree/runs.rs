//! What runs of equal bytes cost beside random bytes, where both are searched to the end: a table in markdown, and the dearest in sentences.
//!
//! After 31 cuts a search ends. Random bytes are often cut so early, a run of equal bytes never; so strings are compared of which no
//! random one has 31 cuts. All windows of a run have one value, which by rule 3 may be any; it stands beside.

use super::growth::{name, worst, Figure};
use crate::cut::cut;
use crate::pass::{call_and_pass, cost};
use reference::partition::{window_value, MOST_CUTS};
use reference::rcds::ACCEPTED;
use reference::settings::Settings;
use reference::vectors::string;
use std::hint::black_box;

const WINDOWS: [u64; 3] = [2, 8, 12];
const DISTANCES: [u64; 8] = [1, 2, 4, 8, 16, 64, 512, 4_096];

/// The columns of the table. A preallocated file is a quarter of samples, then zeros.
const CONTENTS: [&str; 4] = ["random", "zeros", "sevens", "preallocated"];

/// The bytes of the two runs.
const RUNS: [(&str, u8); 2] = [("zeros", 0), ("sevens", 7)];

/// The bytes of all strings of a cell.
const BYTES: usize = 65_536;

/// One level of blocks.
fn settings(window: u64, distance: u64) -> Settings {
    Settings {
        window,
        fan_out: 2,
        levels: 1,
        nominal: 2 * distance,
    }
}

/// Strings of so many bytes each, different ones where the content is not one byte.
fn strings(content: &str, length: usize) -> Vec<Vec<u8>> {
    let (kind, filled) = match content {
        "random" => (2, length),
        "zeros" => (0, length),
        "sevens" => (1, length),
        _ => (4, length / 4),
    };
    let of = |bytes: &[u8]| [&bytes[..filled], &vec![0; length - filled]].concat();
    string(kind, BYTES).chunks_exact(length).map(of).collect()
}

/// Whether the search goes to the end of all strings: none has 31 cuts.
fn searched_to_the_end(settings: &Settings, strings: &[Vec<u8>]) -> bool {
    let mut nodes = vec![0; 65_536];
    // The root, and a block more than there are cuts.
    let cuts = |answer: u64| (answer - ACCEPTED) as usize - 2;
    strings
        .iter()
        .all(|string| cuts(cut(settings, string, &mut nodes)) < MOST_CUTS)
}

/// 64 KiB where random bytes are searched to the end, else about 40 times the distance.
fn length(settings: &Settings) -> usize {
    let distance = settings.nominal as usize / 2;
    let lengths = [BYTES, 40 * distance + settings.window as usize];
    let allowed = |length: &usize| searched_to_the_end(settings, &strings("random", *length));
    let found = lengths.into_iter().find(allowed);
    found.expect("a length with fewer than 31 cuts")
}

/// The time of cutting all strings in FNV-1a passes over them.
fn passes(settings: &Settings, strings: &[Vec<u8>]) -> f64 {
    let mut nodes = vec![0; 65_536];
    let (call, pass) = call_and_pass(1, &strings.concat(), || {
        for string in strings {
            black_box(cut(settings, black_box(string), &mut nodes));
        }
    });
    call / pass
}

/// The value of all windows of a run.
fn value(settings: &Settings, byte: u8) -> String {
    let rule = settings.rule(1);
    window_value(&vec![byte; rule.window], 0, &rule).to_string()
}

/// Measures one setting and prints its row; the passes of each content beside those of random bytes.
fn row(settings: &Settings) -> [Figure; 4] {
    let length = length(settings);
    let passes = CONTENTS.map(|content| passes(settings, &strings(content, length)));
    let ratios = passes.map(|of_content| of_content / passes[0]);
    let cells = |figures: &[f64]| {
        figures
            .iter()
            .map(|figure| format!("{figure:.2}"))
            .collect()
    };
    let cells: [Vec<String>; 2] = [cells(&passes), cells(&ratios[1..])];
    println!(
        "| {} | {} | {length} | {} | {} |",
        name(settings),
        settings.nominal / 2,
        RUNS.map(|(_, byte)| value(settings, byte)).join(" | "),
        cells.concat().join(" | ")
    );
    ratios.map(|ratio| (ratio, format!("{}, {length} bytes", name(settings))))
}

fn print_zeros() {
    let settings = Settings {
        window: 8,
        fan_out: 2,
        levels: 4,
        nominal: 16,
    };
    let (zeros, mut nodes) = (vec![0; BYTES], vec![0; 65_536]);
    let call = cost(|| {
        black_box(cut(&settings, black_box(&zeros), &mut nodes));
    });
    println!(
        "64 KiB of zeros take {:.2} ms with {}.",
        call.microseconds / 1e3,
        name(&settings)
    );
}

/// Measures and prints.
pub fn run() {
    println!();
    println!("Strings that are searched to the end: time of cutting them in FNV-1a passes over the same bytes, and beside random ones.");
    println!();
    let beside: Vec<String> = CONTENTS[1..]
        .iter()
        .map(|content| format!("{content} / random"))
        .collect();
    let heads = [
        RUNS.map(|(content, _)| format!("value of {content}"))
            .to_vec(),
        CONTENTS.map(str::to_string).to_vec(),
        beside,
    ]
    .concat();
    println!("| w p L M | h | bytes | {} |", heads.join(" | "));
    println!("|---|{}", "---:|".repeat(2 + heads.len()));
    let all = WINDOWS
        .iter()
        .flat_map(|w| DISTANCES.map(|h| settings(*w, h)));
    let rows: Vec<[Figure; 4]> = all.map(|settings| row(&settings)).collect();
    println!();
    for (place, content) in [(1, "Zeros"), (2, "Sevens"), (3, "Preallocated files")] {
        let (most, place) = worst(rows.iter().map(|row| row[place].clone()));
        println!("{content} cost at most {most:.2} times random bytes where both are searched to the end ({place}).");
    }
    print_zeros();
}
