//! A search for settings: of a grid, for each size, those of the least mean bytes of a session over all pairs of the
//! group `settings`; and what these and the recommended ones cost on other pairs. It takes some minutes.

use crate::calls::{sketch_open, Settings};
use crate::pairs::SIZES;
use crate::session::{run as session, Session};
use crate::settings::{by_change, differences, recommended, Pair, SEEDS, TRIED};
use crate::strings::CHANGES;
use crate::widths::{cells, table};

const WINDOWS: [u64; 3] = [4, 8, 12];
const FAN_OUTS: [u64; 5] = [4, 5, 6, 7, 8];
const LEVELS: [u64; 3] = [1, 2, 3];
const WIDTHS: [u64; 15] = [5, 7, 9, 11, 13, 15, 17, 19, 23, 27, 31, 35, 43, 53, 61];

/// M in sixteenths of the string's length.
const NOMINALS: [u64; 16] = [2, 3, 4, 5, 6, 7, 8, 10, 12, 14, 16, 20, 24, 32, 48, 64];

/// The least distance of cuts at the last level.
const LEAST_DISTANCE: u64 = 16;

/// How many settings are printed for a size, beside the recommended ones.
const PRINTED: usize = 10;

/// Seeds of the pairs on which the printed settings are tried again: those of the search favour what it found.
const OTHER_SEEDS: std::ops::Range<u64> = 3_000..3_024;

/// Mean bytes of a session; how many handed over of all, and of each change.
struct Found {
    settings: Settings,
    bytes: usize,
    handed: Vec<usize>,
}

/// The w, p, L and M that are tried: a node's 32 children must be enough for the string.
fn grid(length: u64) -> Vec<[u64; 4]> {
    let mut grid = Vec::new();
    for (w, p) in WINDOWS.iter().flat_map(|w| FAN_OUTS.map(|p| (*w, p))) {
        for (levels, sixteenths) in LEVELS.iter().flat_map(|l| NOMINALS.map(|m| (*l, m))) {
            let nominal = sixteenths * length / 16;
            let distance = nominal / p.pow(levels as u32);
            if nominal <= 65_536 && 32 * nominal / p >= length && distance >= LEAST_DISTANCE {
                grid.push([w, p, levels, nominal]);
            }
        }
    }
    grid
}

fn with_width([w, p, levels, nominal]: [u64; 4], width: u64) -> Settings {
    Settings([w, p, levels, nominal, width])
}

/// The bytes of a pair's session with each width, and whether it is handed over; the whole string is sent where it is not. Nothing
/// where a tree is refused. Whether a sketch opens depends on the shingles that differ, and what follows the opening does not depend
/// on the width, so that one session is run.
fn of_pair(numbers: [u64; 4], pair: &Pair) -> Option<[(usize, bool); WIDTHS.len()]> {
    let [new, gone] = differences(&with_width(numbers, 1), pair)?;
    let opens = WIDTHS.map(|width| {
        let (theirs, own) = (cells(width, &new), cells(width, &gone));
        let few = new.len() + gone.len() <= 3 * width as usize;
        few && sketch_open(numbers[2], width, &theirs, &own, &mut table(&gone)).is_ok()
    });
    let opening = |width: u64| 8 + 48 + 180 * width as usize;
    let narrowest = opens.iter().position(|opens| *opens).map(|at| WIDTHS[at]);
    let run = narrowest.map(|width| {
        (
            width,
            session(&with_width(numbers, width), &pair.0, &pair.1),
        )
    });
    let run = run.filter(|(_, session)| session.refused.is_none());
    let rest = run.map(|(width, session)| session.bytes() - opening(width));
    let mut all = WIDTHS.map(|width| (opening(width) + pair.0.len(), false));
    for (place, width) in WIDTHS.into_iter().enumerate() {
        if let (true, Some(rest)) = (opens[place], rest) {
            all[place] = (opening(width) + rest, true);
        }
    }
    Some(all)
}

/// The width of the least mean bytes.
fn best(numbers: [u64; 4], pairs: &[Vec<Pair>]) -> Option<Found> {
    let of_change = |pairs: &Vec<Pair>| pairs.iter().map(|pair| of_pair(numbers, pair)).collect();
    let all: Vec<Vec<_>> = pairs.iter().map(of_change).collect::<Option<_>>()?;
    let number: usize = pairs.iter().map(Vec::len).sum();
    let found = |(place, width): (usize, u64)| Found {
        settings: with_width(numbers, width),
        bytes: all.iter().flatten().map(|of| of[place].0).sum::<usize>() / number,
        handed: all
            .iter()
            .map(|of| of.iter().filter(|of| of[place].1).count())
            .collect(),
    };
    WIDTHS
        .into_iter()
        .enumerate()
        .map(found)
        .min_by_key(|found| found.bytes)
}

/// What settings cost on pairs.
fn tried(settings: &Settings, pairs: &[Vec<Pair>]) -> Found {
    let run = |(string, own): &Pair| session(settings, string, own);
    let all: Vec<Vec<Session>> = pairs
        .iter()
        .map(|pairs| pairs.iter().map(run).collect())
        .collect();
    let number: usize = pairs.iter().map(Vec::len).sum();
    let handed = |of: &Vec<Session>| of.iter().filter(|one| one.refused.is_none()).count();
    Found {
        settings: *settings,
        bytes: all.iter().flatten().map(Session::bytes).sum::<usize>() / number,
        handed: all.iter().map(handed).collect(),
    }
}

/// Prints settings as a row of the table: on the pairs of the search, and on others.
fn print_row(size: usize, found: &Found, again: &Found) {
    let of_changes: Vec<String> = found.handed.iter().map(usize::to_string).collect();
    println!(
        "| {size} | {} | {} | {} | {} | {} | {} |",
        found.settings,
        found.bytes,
        found.handed.iter().sum::<usize>(),
        of_changes.join(" | "),
        again.bytes,
        again.handed.iter().sum::<usize>()
    );
}

/// Searches and prints the rows of a size, the recommended settings last.
fn print_rows(size: usize) {
    let (pairs, others) = (by_change(size, SEEDS), by_change(size, OTHER_SEEDS));
    let grid = grid(1_024 * size as u64);
    let mut all: Vec<Found> = grid
        .iter()
        .filter_map(|numbers| best(*numbers, &pairs))
        .collect();
    all.sort_by_key(|found| found.bytes);
    all.truncate(PRINTED);
    all.push(tried(&recommended(size), &pairs));
    for found in &all {
        print_row(size, found, &tried(&found.settings, &others));
    }
}

/// Searches and prints.
pub fn run() {
    println!();
    println!("The settings of the least mean bytes of a session over 72 pairs, the whole string included where it was refused, each with its");
    println!("best width; how many handed over, in all and of the 12 of each change; then the same on 576 other pairs. The recommended");
    println!("settings stand last.");
    println!();
    println!(
        "| KiB | w p L M q | bytes | handed over | {} | other pairs: bytes | handed over |",
        CHANGES[TRIED].join(" | ")
    );
    println!("|---:|---|---:|---:|{}", "---:|".repeat(TRIED.len() + 2));
    SIZES.into_iter().for_each(print_rows);
}
