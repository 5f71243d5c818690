//! The settings that are measured, and what is printed of them.

use super::growth::{growth, name, worst, Figure};
use super::measure::{Cost, Row};
use super::strings::{CONTENTS, SIZES};
use reference::settings::Settings;

/// One level with h from 1 to 32,768; four levels with p = 2 and with p = 8, the first h from 8 to
/// 32,768 and the last from 1 to 4,096; the shortest and the longest window.
pub fn settings() -> Vec<Settings> {
    let with = |window, fan_out, levels, nominal| Settings {
        window,
        fan_out,
        levels,
        nominal,
    };
    let mut settings = Vec::new();
    for h in [1, 4, 16, 64, 256, 1_024, 4_096, 8_192, 16_384, 32_768] {
        settings.push(with(12, 2, 1, 2 * h));
    }
    for window in [12, 2] {
        for nominal in [16, 64, 256, 1_024, 4_096, 16_384, 65_536] {
            settings.push(with(window, 2, 4, nominal));
        }
        for nominal in [4_096, 16_384, 65_536] {
            settings.push(with(window, 8, 4, nominal));
        }
    }
    settings
}

fn distances(settings: &Settings) -> String {
    let distance = |level| settings.rule(level).distance.to_string();
    (1..=settings.levels)
        .map(distance)
        .collect::<Vec<_>>()
        .join(" ")
}

/// The table: a row for each setting, a column for each string.
pub fn print(rows: &[Row]) {
    println!(
        "Time of one call in FNV-1a passes over the same bytes, and how many times longer the"
    );
    println!("reference takes over 64 KiB. A star: refused by question 8.");
    println!();
    let mut heads = vec!["w p L M".to_string(), "h of each level".to_string()];
    let mut sides = vec!["---".to_string(); 2];
    for (content, _) in CONTENTS {
        heads.extend(SIZES.iter().map(|size| format!("{content} {size}")));
        sides.extend(SIZES.iter().map(|_| "---:".to_string()));
    }
    heads.extend(
        CONTENTS
            .iter()
            .map(|(content, _)| format!("reference, {content}")),
    );
    sides.extend(CONTENTS.iter().map(|_| "---:".to_string()));
    println!("| {} |", heads.join(" | "));
    println!("|{}|", sides.join("|"));
    for row in rows {
        let mut cells = vec![name(&row.settings), distances(&row.settings)];
        cells.extend(row.costs.iter().flatten().map(passes));
        let reference = row.costs.iter().flatten().filter_map(|cost| cost.reference);
        cells.extend(reference.map(|ratio| format!("{ratio:.1}")));
        println!("| {} |", cells.join(" | "));
    }
    println!();
}

fn passes(cost: &Cost) -> String {
    let star = if cost.refused { "*" } else { "" };
    format!("{:.1}{star}", cost.passes)
}

fn longest(row: &Row) -> Vec<Figure> {
    let figure = |(costs, (content, _)): (&Vec<Cost>, (&str, u64))| {
        let cost = costs.last().expect("a content has strings");
        (cost.passes, format!("{}, {content}", name(&row.settings)))
    };
    row.costs.iter().zip(CONTENTS).map(figure).collect()
}

/// The worst figures, in sentences.
pub fn print_worst(rows: &[Row]) {
    let contents = 0..CONTENTS.len();
    let all = contents.flat_map(|content| rows.iter().flat_map(move |row| growth(row, content)));
    let (most, place) = worst(all);
    println!("Four times the bytes cost at most {most:.2} times the time ({place}).");
    let four = rows.iter().filter(|row| row.settings.levels == 4);
    let (most, place) = worst(four.flat_map(longest));
    println!(
        "The dearest setting takes at most {most:.1} FNV-1a passes at 64 KiB with L = 4 ({place})."
    );
}
