//! The cases: settings, string and table size, each made from the seed and the case's number alone.

use super::entries;
use super::runs::{self, LONGEST_DISTANCE, RUNS};
use crate::content::{self, Content, KINDS};
use crate::failure::first_bytes;
use crate::random::{family_of, together, Random};
use crate::settings::{
    any_allowed, any_length, edge_nominals, edge_settings, many_nodes, with_nominal, NOMINALS,
};
use reference::settings::Settings;
use reference::vectors::{FULL_RULER, RULED};
use std::fmt;

/// One call.
pub struct Case {
    pub seed: u64,
    pub number: usize,
    pub settings: Settings,
    pub content: Content,
    pub string: Vec<u8>,
    pub table_length: usize,
    /// How far the lent pieces are moved in memory, so that most of them are not aligned.
    pub string_shift: usize,
    pub table_shift: usize,
}

impl fmt::Display for Case {
    fn fmt(&self, f: &mut fmt::Formatter) -> fmt::Result {
        let settings = &self.settings;
        writeln!(
            f,
            "w={} p={} levels={} nominal={}, {:?} string of {} bytes, node table of {} bytes",
            settings.window,
            settings.fan_out,
            settings.levels,
            settings.nominal,
            self.content,
            self.string.len(),
            self.table_length,
        )?;
        write!(f, "the string:{}", first_bytes(&self.string, 32))
    }
}

/// The bytes of a node table with room for 4,096 nodes.
const TABLE: usize = 65_536;

/// The longest string that question 6 allows.
const LONGEST: usize = 65_536;

/// A ruler of this length has 4,096 nodes, and so have those of one to three bytes more. The first of the lengths around
/// it, those around which random strings have as many, and how many lengths there are of each.
const FULL: usize = FULL_RULER;
const LIMIT_FROM: usize = FULL_RULER - 29;
const RANDOM_LIMIT_FROM: usize = 10_200;
const RANDOM_LIMIT_STEP: usize = 8;
const LIMIT_LENGTHS: usize = 60;

/// The families of cases, and how many cases each has.
const FAMILIES: [(Family, usize); 12] = [
    (Family::Full, 40),
    (Family::AtTheLimit, 4 * LIMIT_LENGTHS),
    (Family::EdgeSettings, 8 * 8 * 8 * NOMINALS),
    (Family::EdgeNominals, 3 * 7 * 4 * NOMINALS),
    (Family::TableSizes, 1_500),
    (Family::AllSettings, 11 * 7 * 4 * 45),
    (Family::Runs, 11 * LONGEST_DISTANCE * RUNS),
    (Family::Entries, entries::CASES),
    (Family::ManyNodes, 100),
    (Family::TooLong, 100),
    (Family::Middle, 1_500),
    (Family::Long, 260),
];

#[derive(Clone, Copy)]
enum Family {
    /// Rulers that have exactly 4,096 nodes.
    Full,
    /// Rulers and random strings that have about 4,096 nodes.
    AtTheLimit,
    /// Every combination of settings at or past the ends of what is allowed.
    EdgeSettings,
    /// Every p and L that is allowed, with M at or past the ends of what question 4 allows.
    EdgeNominals,
    /// Node tables around 65,536 bytes, and much shorter and longer ones.
    TableSizes,
    /// Every w, p and L that is allowed, with M from p^L to 65,536, over short strings.
    AllSettings,
    /// A run of equal bytes at the start, at the end, in the middle of others or alone, from none to a few h and w long.
    Runs,
    /// Each byte value in short strings that have it often.
    Entries,
    /// Long strings of many blocks with large p and L, which question 8 may refuse.
    ManyNodes,
    /// Strings of more than 65,536 bytes.
    TooLong,
    /// Strings of up to 5,000 bytes.
    Middle,
    /// Strings of up to 65,536 bytes, every thirteenth of exactly that many.
    Long,
}

/// How many cases a run has.
pub fn count() -> usize {
    together(FAMILIES)
}

/// The case of this number.
pub fn case(seed: u64, number: usize) -> Case {
    let (family, place) = family_of(FAMILIES, number);
    family_case(family, place, seed, number)
}

/// The cases of entries, each with the byte value that is often in its string.
#[cfg(test)]
pub fn of_entries(seed: u64) -> Vec<(u8, Case)> {
    let of_number = |number: usize| match family_of(FAMILIES, number) {
        (Family::Entries, place) => Some((entries::byte(place), case(seed, number))),
        _ => None,
    };
    (0..count()).filter_map(of_number).collect()
}

fn family_case(family: Family, place: usize, seed: u64, number: usize) -> Case {
    let mut random = Random::of_case(seed, number);
    let random = &mut random;
    let settings = settings(family, place, random);
    let (content, string) = content_and_string(family, place, &settings, random);
    let table_length = match family {
        Family::EdgeSettings | Family::TableSizes | Family::TooLong => any_table(random),
        _ => random.one_of(&[TABLE, TABLE, TABLE, TABLE + 1, TABLE + 16, TABLE + 40]),
    };
    Case {
        seed,
        number,
        settings,
        content,
        string,
        table_length,
        string_shift: random.between(0, 15) as usize,
        table_shift: random.between(0, 15) as usize,
    }
}

fn settings(family: Family, place: usize, random: &mut Random) -> Settings {
    match family {
        Family::Full | Family::AtTheLimit => RULED,
        Family::EdgeSettings => edge_settings(place),
        Family::EdgeNominals => edge_nominals(place, random),
        Family::AllSettings => {
            let (w, p, levels) = (place % 11, place / 11 % 7, place / 77 % 4);
            with_nominal(2 + w as u64, 2 + p as u64, 1 + levels as u64, random)
        }
        Family::ManyNodes => many_nodes(random),
        Family::Runs => runs::settings(place, random),
        Family::Entries => entries::settings(place, random),
        Family::TableSizes | Family::TooLong | Family::Middle | Family::Long => any_allowed(random),
    }
}

/// What the string holds, and the string.
fn content_and_string(
    family: Family,
    place: usize,
    settings: &Settings,
    random: &mut Random,
) -> (Content, Vec<u8>) {
    let content = content(family, place, random);
    let length = match family {
        Family::Runs => return (content, runs::string(settings, place, random)),
        Family::Entries => return (content, entries::string(place, random)),
        Family::Full => FULL + place % 4,
        Family::AtTheLimit if place < LIMIT_LENGTHS => LIMIT_FROM + place,
        Family::AtTheLimit => RANDOM_LIMIT_FROM + RANDOM_LIMIT_STEP * (place % LIMIT_LENGTHS),
        Family::TooLong => random.one_of(&[LONGEST + 1, LONGEST + 2, 70_000, 131_072, 200_000]),
        Family::ManyNodes => random.by_size(3_000, LONGEST as u64) as usize,
        Family::Middle => any_length(settings, 600, 5_000, random),
        Family::Long if place % 13 == 0 => LONGEST,
        Family::Long => any_length(settings, 5_000, LONGEST, random),
        Family::EdgeSettings => random.one_of(&[0, 5, 100, LONGEST + 1]),
        Family::EdgeNominals => random.between(0, 600) as usize,
        Family::TableSizes | Family::AllSettings => any_length(settings, 0, 1_200, random),
    };
    (content, content::string(content, length, random))
}

fn content(family: Family, place: usize, random: &mut Random) -> Content {
    match family {
        Family::Runs => Content::Runs,
        Family::Entries => Content::OneOften,
        Family::Full => Content::Ruler,
        Family::AtTheLimit if place < LIMIT_LENGTHS => Content::Ruler,
        Family::AtTheLimit => Content::Random,
        Family::ManyNodes => random.one_of(&[Content::Random, Content::Ruler, Content::Edited]),
        Family::Middle | Family::Long => KINDS[place % KINDS.len()],
        _ => random.one_of(&KINDS),
    }
}

/// Any size of a node table, most of them around the limit.
fn any_table(random: &mut Random) -> usize {
    let short = random.between(0, TABLE as u64 - 1) as usize;
    let long = random.between(TABLE as u64, 3 * TABLE as u64) as usize;
    random.one_of(&[
        0,
        1,
        15,
        16,
        short,
        TABLE - 16,
        TABLE - 1,
        TABLE,
        TABLE + 1,
        TABLE + 16,
        long,
    ])
}
