//! How much longer a string takes than one of a quarter of its length.

use super::measure::{Cost, Row};
use super::strings::CONTENTS;
use reference::settings::Settings;

/// A figure, and where it was found.
pub type Figure = (f64, String);

pub fn worst(figures: impl Iterator<Item = Figure>) -> Figure {
    let larger = |a: Figure, b: Figure| if b.0 > a.0 { b } else { a };
    figures.reduce(larger).expect("something was measured")
}

/// How much longer each string of a content takes than the one of a quarter of its length, with the same
/// settings. A cost is counted in passes over the string's own bytes.
pub fn growth(row: &Row, content: usize) -> Vec<Figure> {
    let figure = |pair: &[Cost]| {
        let (name, kib) = (name(&row.settings), pair[1].length / 1_024);
        let place = format!("{name}, {} of {kib} KiB", CONTENTS[content].0);
        (4.0 * pair[1].passes / pair[0].passes, place)
    };
    row.costs[content].windows(2).map(figure).collect()
}

pub fn name(settings: &Settings) -> String {
    let Settings {
        window,
        fan_out,
        levels,
        nominal,
    } = settings;
    format!("{window} {fan_out} {levels} {nominal}")
}

/// Windows of 2 and 12 bytes, all fan-outs and levels, and the nominal lengths from 65,536 down by halves.
pub fn settings() -> Vec<Settings> {
    let mut settings = Vec::new();
    for window in [2, 12] {
        for fan_out in 2..=8u64 {
            for levels in 1..=4 {
                let allowed = |nominal: &u64| *nominal >= fan_out.pow(levels as u32);
                let nominals = (0..=16).map(|halves| 65_536 >> halves).filter(allowed);
                settings.extend(nominals.map(|nominal| Settings {
                    window,
                    fan_out,
                    levels,
                    nominal,
                }));
            }
        }
    }
    settings
}

/// How many times longer four times the bytes may take.
const LIMIT: f64 = 5.0;

/// How many figures are above the limit, and the largest.
pub fn print_above(rows: &[Row]) {
    let of_row = |row: &Row| -> Vec<Figure> {
        (0..row.costs.len())
            .flat_map(|content| growth(row, content))
            .collect()
    };
    let figures: Vec<Figure> = rows.iter().flat_map(of_row).collect();
    let above = figures.iter().filter(|figure| figure.0 > LIMIT).count();
    let all = figures.len();
    let (most, place) = worst(figures.into_iter());
    println!("Four times the bytes cost more than {LIMIT} times the time in {above} of {all} figures, at most {most:.2} times ({place}).");
}
