//! The lists of strings that are measured.

use super::ends::{build, set_up};
use crate::sessions::ends::End;
use reference::settings::Settings;
use reference::shingle::Shingle;
use reference::strata::TABLE_BYTES;
use reference::vectors::{string, FULL_RULER};

/// w, p, L, M, and the string: its content with its kind as `vectors` numbers it, and its length.
pub type List = ([u64; 4], (&'static str, u64), usize);

const RULER: (&str, u64) = ("ruler", 6);
const RANDOM: (&str, u64) = ("random", 2);

/// A string of 4,096 shingles.
const FULL: List = ([8, 8, 4, 8_192], RANDOM, 20_867);

/// 4,096 nodes with few shingles; the settings that the guide recommends; strings of many shingles; and the
/// one of 4,096.
pub const LISTS: [List; 7] = [
    ([2, 8, 4, 4_096], RULER, FULL_RULER),
    ([12, 8, 1, 1_024], RANDOM, 4_096),
    ([12, 7, 2, 5_120], RANDOM, 16_384),
    ([12, 8, 3, 32_768], RANDOM, 65_536),
    ([12, 8, 4, 65_536], RANDOM, 65_536),
    ([12, 7, 4, 22_000], RANDOM, 65_536),
    FULL,
];

/// Those over which estimates are measured.
pub const ESTIMATED: [List; 3] = [LISTS[2], LISTS[3], FULL];

/// One estimate.
pub struct Asked {
    pub name: String,
    /// How many shingles differ.
    pub differ: usize,
    pub end: End,
    pub theirs: Vec<u8>,
    pub own: Vec<u8>,
}

pub fn settings([window, fan_out, levels, nominal]: [u64; 4]) -> Settings {
    Settings {
        window,
        fan_out,
        levels,
        nominal,
    }
}

/// The strata of an end.
pub fn strata(end: &End) -> Vec<u8> {
    let mut table = vec![0; TABLE_BYTES];
    assert_eq!(build(end, &mut table), 0, "the strata are built");
    table
}

/// The string with so many bytes changed, evenly apart, at the first places where its tree is not refused.
fn changed(settings: &Settings, string: &[u8], bytes: usize) -> End {
    let apart = string.len() / (bytes + 1);
    let at = |shift: usize| {
        let mut string = string.to_vec();
        (1..=bytes).for_each(|k| string[k * apart - shift] ^= 0x55);
        string
    };
    let mut ends = (0..apart).filter_map(|shift| set_up(settings, &at(shift)).ok());
    ends.next().expect("one that is not refused")
}

/// The string of the next shorter length that is not refused, whose random bytes are others.
fn another(settings: &Settings, kind: u64, length: usize) -> End {
    let shorter = (0..length).rev().map(|length| string(kind, length));
    let mut ends = shorter.filter_map(|string| set_up(settings, &string).ok());
    ends.next().expect("one that is not refused")
}

/// How many shingles one of two ends has and the other has not.
fn differ(one: &End, other: &End) -> usize {
    let (a, b) = (one.lent.shingle_list(), other.lent.shingle_list());
    let lacking = |x: &[Shingle], y: &[Shingle]| x.iter().filter(|one| !y.contains(one)).count();
    lacking(&a, &b) + lacking(&b, &a)
}

/// A string beside itself, beside changed ones, and beside another one.
pub fn of_string((numbers, (content, kind), length): &List) -> Vec<Asked> {
    let settings = settings(*numbers);
    let string = string(*kind, *length);
    let end = set_up(&settings, &string).expect("a string that is not refused");
    let [w, p, levels, nominal] = numbers;
    let others = [
        ("equal", end.clone()),
        ("one byte changed", changed(&settings, &string, 1)),
        ("ten bytes changed", changed(&settings, &string, 10)),
        ("different", another(&settings, *kind, *length)),
    ];
    let asked = |(name, other): (&str, End)| Asked {
        name: format!("{w} {p} {levels} {nominal}, {content}, {name}"),
        differ: differ(&end, &other),
        end: end.clone(),
        theirs: strata(&other),
        own: strata(&end),
    };
    others.map(asked).into()
}
