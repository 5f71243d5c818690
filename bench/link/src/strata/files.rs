//! Pairs of files: estimates, widths, whole sessions, and what the tables of strata hold.

use super::choice::{self, opening, IN_TURN};
use super::pair::Pair;
use super::rough::{self, middle};
use super::{packed, print};
use crate::calls::{receiver, sender, Settings};
use crate::pairs::SIZES;
use crate::session::run as session;
use crate::settings::recommended;
use crate::strings::{pair, CHANGES, CONTENTS};

/// Seeds of the pairs, others than those of the other groups.
const SEEDS: std::ops::Range<u64> = 1_000..1_050;

/// How many pairs stand behind a row.
const PAIRS: usize = CONTENTS.len() * (SEEDS.end - SEEDS.start) as usize;

/// The session number, which the strata do not depend on.
const SESSION: u64 = 1;

/// The change whose tables of strata are looked at.
const LOOKED_AT: &str = "one byte changed";

/// The heads of the first columns, and of those of the sessions.
const HEADS: [&str; 3] = ["KiB", "change", "differ"];
const OF_SESSIONS: [&str; 6] = [
    "2 s: handed over",
    "bytes",
    "recommended: handed over",
    "bytes",
    "11, 23, 61: handed over",
    "bytes",
];

type Strings = (Vec<u8>, Vec<u8>);

/// The recommended settings with another width.
fn with_width(size: usize, width: u64) -> Settings {
    let [w, p, levels, nominal, _] = recommended(size).0;
    Settings([w, p, levels, nominal, width])
}

/// The strings of a size, a content and a change.
fn strings(size: usize, content: &str, change: &str) -> Vec<Strings> {
    let one = |seed| pair(content, change, size * 1_024, seed);
    SEEDS.map(one).collect()
}

/// The lists of two strings. The strata do not depend on the width, so it is 1.
fn lists(size: usize, (string, own): &Strings) -> Pair {
    let settings = with_width(size, 1);
    let sender = sender(&settings, string).expect("a sender");
    let receiver = receiver(&settings, SESSION, own).expect("a receiver");
    Pair::new(settings.0[2], &sender, &receiver)
}

/// One transfer with some widths in turn: whether a session hands over, and the bytes of all messages. The
/// whole string is sent where none does. No opening is asked for that is as long as the string.
fn transfer(size: usize, (string, own): &Strings, widths: &[u64]) -> (bool, usize) {
    let mut bytes = 0;
    for width in widths {
        if opening(*width) < string.len() as u64 {
            let session = session(&with_width(size, *width), string, own);
            bytes += session.asked + session.replied;
            if session.refused.is_none() {
                return (true, bytes);
            }
        }
    }
    (false, bytes + string.len())
}

/// How many transfers hand over, and their mean bytes. Where there is nothing to try, the strings are known
/// to be equal.
fn transfers(size: usize, all: &[Strings], widths: impl Fn(usize) -> Option<Vec<u64>>) -> String {
    let (mut handed, mut sum) = (0, 0);
    for (place, strings) in all.iter().enumerate() {
        let (open, bytes) = match widths(place) {
            Some(widths) => transfer(size, strings, &widths),
            None => (true, 0),
        };
        handed += usize::from(open);
        sum += bytes;
    }
    format!("{handed} | {}", sum / all.len())
}

/// The rows of one change: estimates, widths, and sessions.
fn rows(size: usize, change: &str) -> [String; 3] {
    let all = CONTENTS.iter();
    let all: Vec<Strings> = all
        .flat_map(|content| strings(size, content, change))
        .collect();
    let pairs: Vec<Pair> = all.iter().map(|strings| lists(size, strings)).collect();
    let differ = middle(pairs.iter().map(|pair| pair.differences).collect());
    let [.., recommended] = recommended(size).0;
    let of_sessions = [
        transfers(size, &all, |place| choice::widths(&pairs[place])),
        transfers(size, &all, |_| Some(vec![recommended])),
        transfers(size, &all, |_| Some(IN_TURN.to_vec())),
    ];
    [
        rough::cells(&pairs),
        choice::cells_of_one(&pairs),
        of_sessions.join(" | "),
    ]
    .map(|cells| format!("{size} | {change} | {differ} | {cells}"))
}

/// The row of what tables of strata hold.
fn row_of_tables(size: usize, content: &str) -> String {
    let strings = strings(size, content, LOOKED_AT);
    let pairs: Vec<Pair> = strings.iter().map(|strings| lists(size, strings)).collect();
    format!("{size} | {content} | {}", packed::cells(&pairs))
}

/// Prints what the tables of strata of the files hold.
fn print_tables() {
    println!();
    println!("What tables of strata hold ({LOOKED_AT}): fewest, middle and most.");
    let of_size = |size| CONTENTS.map(|content| row_of_tables(size, content));
    let rows: Vec<String> = SIZES.into_iter().flat_map(of_size).collect();
    print(&[&["KiB", "content"], &packed::HEADS[..]].concat(), &rows);
}

/// Measures and prints.
pub fn run() {
    let of_size = |size| CHANGES.map(|change| rows(size, change));
    let rows: Vec<[String; 3]> = SIZES.into_iter().flat_map(of_size).collect();
    let print = |heads: &[&str], place: usize| {
        let rows: Vec<String> = rows.iter().map(|row| row[place].clone()).collect();
        print(&[&HEADS, heads].concat(), &rows);
    };
    println!();
    println!("Estimates of {PAIRS} pairs of files.");
    print(&rough::HEADS, 0);
    println!();
    println!("Widths chosen by the estimate, of the same pairs.");
    print(&choice::HEADS_OF_ONE, 1);
    println!();
    println!("Sessions of the same pairs: handed over, and mean bytes, those of the strata left out. The widths are");
    println!("chosen by the strata; then the recommended one; then 11, 23 and 61 in turn.");
    print(&OF_SESSIONS, 2);
    print_tables();
}
