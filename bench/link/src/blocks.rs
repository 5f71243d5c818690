//! What settings make of a string: nodes, shingles, and the blocks of the last level.

use crate::calls::{sender, Settings};
use crate::pairs::SIZES;
use crate::strings::{content, Random, CONTENTS};

/// w, p, L and M: the distance of cuts at the last level is M / p^L.
const SETTINGS: [[u64; 4]; 9] = [
    [8, 2, 1, 4_096],
    [8, 8, 1, 1_024],
    [12, 8, 1, 1_024],
    [4, 8, 2, 4_096],
    [12, 7, 2, 5_120],
    [4, 4, 3, 16_384],
    [8, 7, 3, 32_768],
    [2, 8, 3, 32_768],
    [12, 8, 3, 32_768],
];

/// Shingles, blocks of the last level, and the longest of them; the question where it is refused.
fn cut(settings: &Settings, string: &[u8]) -> Result<(usize, usize, u64), u64> {
    let end = sender(settings, string)?;
    let levels = settings.0[2];
    let shingles = end
        .shingles
        .chunks(24)
        .filter(|entry| entry[22..] != [0, 0]);
    let blocks: Vec<u64> = end
        .nodes
        .chunks(16)
        .filter(|entry| entry[..8] != [0; 8])
        .map(|entry| {
            entry[8..]
                .iter()
                .fold(0, |row, byte| row << 8 | u64::from(*byte))
        })
        .filter(|row| row & 7 == levels)
        .map(|row| row >> 3 & 0x1_ffff)
        .collect();
    let longest = blocks.iter().max().map_or(0, |length| *length);
    Ok((shingles.count(), blocks.len(), longest))
}

/// Measures and prints.
pub fn run() {
    println!();
    println!("Shingles; mean and longest block of the last level, in bytes.");
    println!();
    println!("| KiB | w p L M | M / p^l | {} |", CONTENTS.join(" | "));
    println!("|---:|---|---|{}", "---:|".repeat(CONTENTS.len()));
    for size in SIZES {
        for [w, p, levels, nominal] in SETTINGS {
            let settings = Settings([w, p, levels, nominal, 64]);
            let cells = CONTENTS.map(|name| {
                let string = content(name, &mut Random::new(0), size * 1_024);
                match cut(&settings, &string) {
                    Ok((shingles, blocks, longest)) => {
                        format!("{shingles}; {}, {longest}", string.len() / blocks)
                    }
                    Err(question) => format!("refused by {question}"),
                }
            });
            let apart: Vec<String> = (1..=levels)
                .map(|level| (nominal / p.pow(level as u32)).to_string())
                .collect();
            println!(
                "| {size} | {w} {p} {levels} {nominal} | {} | {} |",
                apart.join(" "),
                cells.join(" | ")
            );
        }
    }
}
