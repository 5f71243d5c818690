//! The cases: settings, string and the sizes of what is lent, each made from the seed and the case's
//! number alone.

use crate::content::{self, Content, KINDS};
use crate::failure::first_bytes;
use crate::random::{family_of, together, Random};
use crate::settings::{
    any_allowed, any_length, edge_nominals, edge_settings, many_nodes, with_nominal, NOMINALS,
};
use reference::settings::Settings;
use reference::vectors::{FULL_RULER, RULED};
use std::fmt;

/// One call.
pub struct Case {
    pub seed: u64,
    pub number: usize,
    pub settings: Settings,
    pub width: u64,
    pub content: Content,
    pub string: Vec<u8>,
    /// The bytes of each piece that is lent for writing.
    pub lengths: Pieces<usize>,
    /// How far the lent pieces are moved in memory, so that most of them are not aligned.
    pub string_shift: usize,
    pub shifts: Pieces<usize>,
}

/// Something of each piece that is lent for writing: the three tables and the state.
#[derive(Clone, Copy, Debug)]
pub struct Pieces<T> {
    pub nodes: T,
    pub shingles: T,
    pub cells: T,
    pub state: T,
}

impl Case {
    /// Which pieces are shorter than question 7 allows: nodes, shingles, cells, state.
    pub fn short(&self) -> [bool; 4] {
        let Pieces {
            nodes,
            shingles,
            cells,
            state,
        } = self.lengths;
        let limits = limits(self.width);
        [
            nodes < limits.nodes,
            shingles < limits.shingles,
            cells < limits.cells,
            state < limits.state,
        ]
    }
}

impl fmt::Display for Case {
    fn fmt(&self, f: &mut fmt::Formatter) -> fmt::Result {
        let settings = &self.settings;
        writeln!(
            f,
            "w={} p={} levels={} nominal={} width={}, {:?} string of {} bytes, {:?}",
            settings.window,
            settings.fan_out,
            settings.levels,
            settings.nominal,
            self.width,
            self.content,
            self.string.len(),
            self.lengths,
        )?;
        write!(f, "the string:{}", first_bytes(&self.string, 32))
    }
}

/// The longest string that question 6 allows.
const LONGEST: usize = 65_536;

/// q outside and at the ends of what question 5 allows; also numbers that would be allowed if only
/// their low 8 or 32 bits were looked at, and one whose 3q cells have no bytes modulo 2^64.
const WIDTHS: [u64; 12] = [
    0,
    1,
    2,
    63,
    64,
    65,
    128,
    256 + 1,
    1 << 16,
    (1 << 32) + 1,
    1 << 61,
    u64::MAX,
];

/// A ruler of this length has 4,096 nodes, and so have those of one and two bytes more. The first of the lengths around it,
/// those around which random strings have as many, and how many lengths there are of each.
const FULL: usize = FULL_RULER;
const LIMIT_FROM: usize = FULL_RULER - 29;
const RANDOM_LIMIT_FROM: usize = 10_200;
const RANDOM_LIMIT_STEP: usize = 8;
const LIMIT_LENGTHS: usize = 60;

/// The families of cases, and how many cases each has.
const FAMILIES: [(Family, usize); 14] = [
    (Family::Full, 40),
    (Family::AtTheLimit, 2 * LIMIT_LENGTHS),
    (Family::EdgeSettings, 8 * 8 * 8 * NOMINALS),
    (Family::EdgeNominals, 7 * 4 * NOMINALS),
    (Family::EdgeWidths, 12 * 40),
    (Family::OneSize, 3_000),
    (Family::Sizes, 1_000),
    (Family::AllSettings, 11 * 7 * 4 * 33),
    (Family::ManyNodes, 60),
    (Family::ManyNodesOneSize, 60),
    (Family::ManyShingles, 40),
    (Family::TooLong, 60),
    (Family::Middle, 1_000),
    (Family::Long, 130),
];

#[derive(Clone, Copy)]
enum Family {
    /// Rulers that have exactly 4,096 nodes.
    Full,
    /// Rulers and random strings that have about 4,096 nodes.
    AtTheLimit,
    /// Every combination of w, p, L and M at or past the ends of what is allowed.
    EdgeSettings,
    /// Every p and L that is allowed, with M at or past the ends of what question 4 allows.
    EdgeNominals,
    /// Every q at or past the ends of what question 5 allows, with settings that are allowed.
    EdgeWidths,
    /// One table, or the state, of a size around its limit, or much shorter or longer.
    OneSize,
    /// All of them of such sizes.
    Sizes,
    /// Every w, p and L that is allowed, with M from p^L to 65,536 and any q, over short strings.
    AllSettings,
    /// Long strings of many blocks with large p and L, which question 8 may refuse.
    ManyNodes,
    /// The same, with one piece that may be too short.
    ManyNodesOneSize,
    /// Random strings that have about 4,096 nodes, nearly all of them with a pair of their own.
    ManyShingles,
    /// Strings of more than 65,536 bytes.
    TooLong,
    /// Strings of up to 5,000 bytes.
    Middle,
    /// Strings of up to 65,536 bytes, every thirteenth of exactly that many.
    Long,
}

/// How many cases a run has.
pub fn count() -> usize {
    together(FAMILIES)
}

/// The case of this number.
pub fn case(seed: u64, number: usize) -> Case {
    let (family, place) = family_of(FAMILIES, number);
    family_case(family, place, seed, number)
}

fn family_case(family: Family, place: usize, seed: u64, number: usize) -> Case {
    let mut random = Random::of_case(seed, number);
    let random = &mut random;
    let settings = match family {
        Family::Full | Family::AtTheLimit => RULED,
        Family::EdgeSettings => edge_settings(place),
        Family::EdgeNominals => edge_nominals(place, random),
        Family::AllSettings => {
            let (w, p, levels) = (place % 11, place / 11 % 7, place / 77 % 4);
            with_nominal(2 + w as u64, 2 + p as u64, 1 + levels as u64, random)
        }
        Family::ManyNodes | Family::ManyNodesOneSize => many_nodes(random),
        Family::ManyShingles => many_shingles(),
        _ => any_allowed(random),
    };
    let width = match family {
        Family::EdgeSettings | Family::EdgeNominals => any_width(random),
        Family::EdgeWidths => WIDTHS[place % WIDTHS.len()],
        _ => random.between(1, 64),
    };
    let length = match family {
        Family::Full => FULL + place % 3,
        Family::AtTheLimit if place < LIMIT_LENGTHS => LIMIT_FROM + place,
        Family::AtTheLimit => RANDOM_LIMIT_FROM + RANDOM_LIMIT_STEP * (place % LIMIT_LENGTHS),
        Family::TooLong => random.one_of(&[LONGEST + 1, LONGEST + 2, 70_000, 131_072, 200_000]),
        Family::ManyNodes | Family::ManyNodesOneSize => {
            random.by_size(3_000, LONGEST as u64) as usize
        }
        Family::ManyShingles => random.between(20_000, 21_500) as usize,
        Family::Middle => any_length(&settings, 600, 5_000, random),
        Family::Long if place % 13 == 0 => LONGEST,
        Family::Long => any_length(&settings, 5_000, LONGEST, random),
        Family::EdgeSettings => random.one_of(&[0, 5, 100, LONGEST + 1]),
        Family::EdgeWidths => random.one_of(&[0, 5, 100, 600, LONGEST + 1]),
        Family::EdgeNominals => random.between(0, 600) as usize,
        Family::OneSize | Family::Sizes | Family::AllSettings => {
            any_length(&settings, 0, 1_200, random)
        }
    };
    let content = match family {
        Family::Full => Content::Ruler,
        Family::AtTheLimit if place < LIMIT_LENGTHS => Content::Ruler,
        Family::AtTheLimit => Content::Random,
        Family::ManyNodes | Family::ManyNodesOneSize => {
            random.one_of(&[Content::Random, Content::Ruler, Content::Edited])
        }
        Family::ManyShingles => Content::Random,
        Family::Middle | Family::Long => KINDS[place % KINDS.len()],
        _ => random.one_of(&KINDS),
    };
    let lengths = match family {
        Family::EdgeSettings | Family::EdgeWidths | Family::TooLong | Family::Sizes => {
            any_lengths(width, random)
        }
        Family::OneSize | Family::ManyNodesOneSize => one_length(place, width, random),
        _ => enough(width, random),
    };
    Case {
        seed,
        number,
        settings,
        width,
        content,
        string: content::string(content, length, random),
        lengths,
        string_shift: random.between(0, 15) as usize,
        shifts: Pieces {
            nodes: random.between(0, 15) as usize,
            shingles: random.between(0, 15) as usize,
            cells: random.between(0, 15) as usize,
            state: random.between(0, 15) as usize,
        },
    }
}

/// The settings with which random strings of 20,000 to 21,500 bytes have about 4,096 nodes.
fn many_shingles() -> Settings {
    Settings {
        window: 8,
        fan_out: 8,
        levels: 4,
        nominal: 8_192,
    }
}

/// Mostly a q that is allowed.
fn any_width(random: &mut Random) -> u64 {
    let allowed = random.between(1, 64);
    let edge = random.one_of(&WIDTHS);
    random.one_of(&[allowed, allowed, allowed, edge])
}

/// The fewest bytes of each piece that question 7 allows; of the cells, where 5 allows q.
fn limits(width: u64) -> Pieces<usize> {
    Pieces {
        nodes: 65_536,
        shingles: 98_304,
        cells: 120 * width.clamp(1, 64) as usize,
        state: 40,
    }
}

/// Every piece as long as it has to be, or a little longer.
fn enough(width: u64, random: &mut Random) -> Pieces<usize> {
    let limits = limits(width);
    let mut longer = |limit: usize, entry: usize| {
        limit + random.one_of(&[0, 0, 0, 1, entry - 1, entry, 2 * entry + 8])
    };
    Pieces {
        nodes: longer(limits.nodes, 16),
        shingles: longer(limits.shingles, 24),
        cells: longer(limits.cells, 40),
        state: longer(limits.state, 8),
    }
}

/// Any size of a piece, most of them around the limit.
fn any_size(limit: usize, entry: usize, random: &mut Random) -> usize {
    let short = random.between(0, limit as u64 - 1) as usize;
    let long = random.between(limit as u64, 2 * limit as u64) as usize;
    random.one_of(&[
        0,
        1,
        short,
        limit - entry,
        limit - 1,
        limit,
        limit + 1,
        limit + entry,
        long,
    ])
}

/// Any size of every piece.
fn any_lengths(width: u64, random: &mut Random) -> Pieces<usize> {
    let limits = limits(width);
    Pieces {
        nodes: any_size(limits.nodes, 16, random),
        shingles: any_size(limits.shingles, 24, random),
        cells: any_size(limits.cells, 40, random),
        state: any_size(limits.state, 8, random),
    }
}

/// Any size of one piece, the pieces in turn.
fn one_length(place: usize, width: u64, random: &mut Random) -> Pieces<usize> {
    let (any, mut lengths) = (any_lengths(width, random), enough(width, random));
    match place % 4 {
        0 => lengths.nodes = any.nodes,
        1 => lengths.shingles = any.shingles,
        2 => lengths.cells = any.cells,
        _ => lengths.state = any.state,
    }
    lengths
}
