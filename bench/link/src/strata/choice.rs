//! Which width is chosen by an estimate, and whether the sketch then opens.

use super::pair::Pair;

/// Widths, and the most differing shingles that at least 950 of 1,000 sketches of the group `widths` opened
/// with each. The others of that group which also open a pair at any two levels open no more than a narrower one of these.
const WIDTHS: [(u64, usize); 6] = [(11, 10), (17, 18), (23, 32), (33, 48), (43, 64), (53, 96)];

/// The width that is compared with the chosen ones.
const FIXED: u64 = 43;

/// The width that is tried last.
const LAST: u64 = 61;

/// Widths that are tried in turn without an estimate.
pub const IN_TURN: [u64; 3] = [11, 23, LAST];

/// From this estimate on no width is tried for files.
const FAR: usize = 256;

/// The bytes of an opening.
pub fn opening(width: u64) -> u64 {
    48 + 180 * width
}

/// The narrowest width for so many differing shingles; none for 0 and for more than the widest opens.
fn width_for(differences: usize) -> Option<u64> {
    let mut widths = WIDTHS.iter();
    let enough = |(_, most): &&(u64, usize)| differences <= *most;
    let found = widths.find(enough).map(|(width, _)| *width);
    found.filter(|_| differences > 0)
}

/// The width for twice the estimate, with the stand-in.
fn width(pair: &Pair) -> Option<u64> {
    width_for(2 * pair.with_stand_in())
}

/// The widths that are tried in turn: the chosen one, then the last. None where the tables are equal.
fn turns(pair: &Pair, chosen: Option<u64>) -> Vec<u64> {
    match pair.has_equal_tables() {
        true => Vec::new(),
        false => chosen.into_iter().chain([LAST]).collect(),
    }
}

/// Those that are tried for files, also none where far too many shingles differ. Nothing where the tables are
/// equal, and no session is needed.
pub fn widths(pair: &Pair) -> Option<Vec<u64>> {
    let widths = match pair.with_stand_in() < FAR {
        true => turns(pair, width(pair)),
        false => Vec::new(),
    };
    Some(widths).filter(|_| !pair.has_equal_tables())
}

/// Whether one of the widths in turn opens, and the bytes of the openings until then.
fn tried(pair: &Pair, widths: &[u64]) -> (bool, u64) {
    let opens = widths.iter().position(|width| pair.opens(*width));
    let tried = opens.map_or(widths.len(), |place| place + 1);
    let bytes = widths[..tried].iter().map(|width| opening(*width)).sum();
    (opens.is_some(), bytes)
}

/// How many of some pairs open and the mean bytes of all openings, each pair with its own widths in turn.
fn all_tried(pairs: &[Pair], widths: impl Fn(&Pair) -> Vec<u64>) -> (usize, u64) {
    let tried: Vec<(bool, u64)> = pairs
        .iter()
        .map(|pair| tried(pair, &widths(pair)))
        .collect();
    let opened = tried.iter().filter(|(opened, _)| *opened).count();
    let bytes: u64 = tried.iter().map(|(_, bytes)| bytes).sum();
    (opened, bytes.checked_div(pairs.len() as u64).unwrap_or(0))
}

/// Four cells of a rule: how many widths are chosen, how many of them open, the mean bytes of these openings,
/// and the mean bytes of all openings of all pairs.
fn cells_of(pairs: &[Pair], rule: impl Fn(&Pair) -> Option<u64>) -> [String; 4] {
    let (mut chosen, mut opened, mut bytes) = (0, 0, 0);
    for (pair, width) in pairs.iter().filter_map(|pair| Some((pair, rule(pair)?))) {
        chosen += 1;
        opened += u64::from(pair.opens(width));
        bytes += opening(width);
    }
    let (_, in_all) = all_tried(pairs, |pair| turns(pair, rule(pair)));
    let mean = bytes.checked_div(chosen).unwrap_or(0);
    [chosen, opened, mean, in_all].map(|number| number.to_string())
}

/// The heads of the columns.
pub const HEADS: [&str; 15] = [
    "2 e: chosen",
    "opened",
    "bytes",
    "in all",
    "s: chosen",
    "opened",
    "bytes",
    "in all",
    "2 s: chosen",
    "opened",
    "bytes",
    "in all",
    "43: opened",
    "11, 23, 61: opened",
    "bytes",
];

/// How many open with the fixed width.
fn fixed(pairs: &[Pair]) -> String {
    let opened = pairs.iter().filter(|pair| pair.opens(FIXED));
    opened.count().to_string()
}

/// Three rules: twice the estimate e, s, which is e with the stand-in, and twice s. Then the fixed width, and
/// widths in turn.
pub fn cells(pairs: &[Pair]) -> String {
    let (opened, bytes) = all_tried(pairs, |_| IN_TURN.to_vec());
    let cells = [
        &cells_of(pairs, |pair| width_for(2 * pair.estimate))[..],
        &cells_of(pairs, |pair| width_for(pair.with_stand_in())),
        &cells_of(pairs, width),
        &[fixed(pairs), opened.to_string(), bytes.to_string()],
    ];
    cells.concat().join(" | ")
}

/// The heads of the columns of the last rule.
pub const HEADS_OF_ONE: [&str; 5] = ["2 s: chosen", "opened", "bytes", "in all", "43: opened"];

/// Twice s, and the fixed width.
pub fn cells_of_one(pairs: &[Pair]) -> String {
    [&cells_of(pairs, width)[..], &[fixed(pairs)]]
        .concat()
        .join(" | ")
}
