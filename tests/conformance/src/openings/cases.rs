//! The cases: two cell tables and a shingle table, each made from the seed and the case's number
//! alone. What the sender's cells have more than the own ones is signed shingles, or forged cells.

use super::any_order::{few_differing, one_shingle, TwoLists, ONE_SHINGLE};
use super::forged::{
    any_cells, forge, odd_list, of_one_pair, taken_twice, Forgery, Oddity, FORGERIES, ODDITIES,
};
use super::lists::{
    cells, count as any_count, difference, list, of_strings, shingle, shuffled, some_of, table,
    MINUS,
};
use crate::failure::first_bytes;
use crate::random::{family_of, together, Random};
use reference::cell_table;
use reference::opening::takings;
use reference::shingle::Shingle;
use reference::sketch::{plus, sketch, Cell};
use std::fmt;

/// One call.
pub struct Case {
    pub seed: u64,
    pub number: usize,
    pub family: Family,
    pub levels: u64,
    pub width: u64,
    pub theirs: Vec<u8>,
    pub own: Vec<u8>,
    pub shingles: Vec<u8>,
    /// The sender's list, where both lists were drawn so that they keep document 01's limits and differ by few shingles.
    pub sender: Option<Vec<Shingle>>,
    /// How far the lent pieces are moved in memory, so that most of them are not aligned.
    pub shifts: [usize; 3],
}

impl fmt::Display for Case {
    fn fmt(&self, f: &mut fmt::Formatter) -> fmt::Result {
        writeln!(
            f,
            "{:?}, levels={} width={}, cell tables of {} and {} bytes, shingle table of {} bytes",
            self.family,
            self.levels,
            self.width,
            self.theirs.len(),
            self.own.len(),
            self.shingles.len(),
        )?;
        write!(f, "the shingles:{}", first_bytes(&self.shingles, 72))
    }
}

/// What a case is.
#[derive(Clone, Copy, Debug, PartialEq, Eq, PartialOrd, Ord)]
pub enum Family {
    /// No difference.
    Equal,
    /// The lists of two strings.
    Strings,
    /// Up to 150 shingles more and fewer.
    Difference,
    /// About as many as a sketch of the width can open.
    NearTheLimit,
    /// Pairs with another count, and some more and fewer.
    ChangedCounts,
    /// Sums of shingles of one pair, few cells.
    OnePair,
    /// Few pairs, few cells: a count that changes makes another pair's shingle look like a third.
    FalseSingles,
    /// A negative shingle that is taken twice, and nothing else amiss.
    TakenTwice,
    /// "a difference of exactly one shingle" (document 02, request 13), of lists in any order.
    OneShingle,
    /// A difference of few shingles, of lists in any order.
    FewShingles,
    /// A difference, and one shingle that is forged.
    Forged(Forgery),
    /// A difference, and a positive shingle that is in the own list.
    PositiveOwn,
    /// A difference, and a negative shingle that is not in the own list.
    NegativeNotOwn,
    /// Cells of any content.
    AnyCells,
    /// A list that no setup leaves.
    Odd(Oddity),
    /// About 4,096 shingles before and after.
    Full,
    /// A longer table with more than 4,096 shingles.
    Long,
    /// Levels and widths at and past the ends of what 3 and 5 allow, tables of any size.
    Questions,
    /// Tables of any size.
    Sizes,
}

/// The families, and how many cases each has; each forgery and each oddity has as many as it says.
const FAMILIES: [(Family, usize); 17] = [
    (Family::Equal, 800),
    (Family::Strings, 2_000),
    (Family::Difference, 5_000),
    (Family::NearTheLimit, 2_000),
    (Family::ChangedCounts, 2_500),
    (Family::OnePair, 2_500),
    (Family::FalseSingles, 1_500),
    (Family::TakenTwice, 60),
    (Family::OneShingle, ONE_SHINGLE),
    (Family::FewShingles, 2_000),
    (Family::PositiveOwn, 400),
    (Family::NegativeNotOwn, 400),
    (Family::AnyCells, 1_000),
    (Family::Full, 160),
    (Family::Long, 80),
    (Family::Questions, 1_500),
    (Family::Sizes, 1_500),
];
const EACH_FORGERY: usize = 350;
const EACH_ODDITY: usize = 400;

/// All families, and how many cases each has.
pub fn families() -> impl Iterator<Item = (Family, usize)> + Clone {
    let forged = FORGERIES.map(|forgery| (Family::Forged(forgery), EACH_FORGERY));
    let odd = ODDITIES.map(|oddity| (Family::Odd(oddity), EACH_ODDITY));
    FAMILIES.into_iter().chain(forged).chain(odd)
}

/// How many cases a run has.
pub fn count() -> usize {
    together(families())
}

/// The case of this number.
pub fn case(seed: u64, number: usize) -> Case {
    let (family, place) = family_of(families(), number);
    let mut random = Random::of_case(seed, number);
    lent(family, place, seed, number, &mut random)
}

/// What is lent, before it is bytes: the own list, and what the sender's cells have more.
struct Plan {
    levels: u64,
    width: u64,
    list: Vec<Shingle>,
    more: Vec<Cell>,
    sender: Option<Vec<Shingle>>,
}

fn plan(family: Family, place: usize, random: &mut Random) -> Plan {
    let (levels, width) = (random.between(1, 4), random.between(1, 64));
    let random_length = list_length(random);
    match family {
        Family::Equal => Plan {
            levels,
            width,
            list: list(random_length, levels, random),
            more: cells(&[], width),
            sender: None,
        },
        Family::Strings => {
            let (levels, list, theirs) = of_strings(random);
            let more = cells(&difference(&list, &theirs), width);
            Plan {
                levels,
                width,
                list,
                more,
                sender: None,
            }
        }
        Family::Difference | Family::Questions | Family::Sizes => {
            let most = random.one_of(&[8, 2 * width, 150]).min(150);
            let number = random.between(1, most) as usize;
            differing(levels, width, number, random_length, random)
        }
        Family::NearTheLimit => {
            let number = random.between(2 * width, 3 * width) as usize;
            differing(levels, width, number, random_length, random)
        }
        Family::ChangedCounts => changed_counts(levels, width, random),
        Family::OnePair => one_pair(levels, random),
        Family::FalseSingles => false_singles(levels, random),
        Family::TakenTwice => {
            let (width, more, list) = taken_twice(random);
            Plan {
                levels,
                width,
                list,
                more,
                sender: None,
            }
        }
        Family::OneShingle => of_two_lists(one_shingle(place, random)),
        Family::FewShingles => of_two_lists(few_differing(random)),
        Family::Forged(forgery) => forged(forgery, levels, width, random),
        Family::PositiveOwn | Family::NegativeNotOwn => wrong_side(family, levels, width, random),
        Family::AnyCells => Plan {
            levels,
            width,
            list: list(random_length, levels, random),
            more: any_cells(width, random),
            sender: None,
        },
        Family::Odd(oddity) => odd(oddity, levels, width, random),
        Family::Full => {
            let length = random.between(4_093, 4_096) as usize;
            let (new, gone) = (random.between(0, 3) as usize, random.between(0, 3) as usize);
            full(levels, width, length, new, gone, random)
        }
        Family::Long => {
            let length = random.between(4_094, 4_150) as usize;
            let (new, gone) = (
                random.between(0, 2) as usize,
                random.between(0, 60) as usize,
            );
            full(levels, 64, length, new, gone, random)
        }
    }
}

fn of_two_lists(lists: TwoLists) -> Plan {
    let signed = difference(&lists.own, &lists.theirs);
    Plan {
        levels: lists.levels,
        width: lists.width,
        list: lists.own,
        more: cells(&signed, lists.width),
        sender: Some(lists.theirs),
    }
}

/// Mostly short, some up to 1,000.
fn list_length(random: &mut Random) -> usize {
    match random.between(0, 19) {
        0 => random.by_size(60, 1_000) as usize,
        _ => random.between(0, 60) as usize,
    }
}

/// A list, and a difference of so many shingles, some of them positive and some negative.
fn differing(levels: u64, width: u64, number: usize, common: usize, random: &mut Random) -> Plan {
    let new = match random.between(0, 4) {
        0 => 0,
        1 => number,
        _ => random.between(0, number as u64) as usize,
    };
    full(
        levels,
        width,
        common + number - new,
        new,
        number - new,
        random,
    )
}

/// A list of this length, and a difference of so many new shingles and so many that are gone.
fn full(
    levels: u64,
    width: u64,
    length: usize,
    new: usize,
    gone: usize,
    random: &mut Random,
) -> Plan {
    let mut list = shuffled(&list(length + new, levels, random), random);
    let new = list.split_off(length);
    list.sort();
    let gone = some_of(&list, gone, random);
    let mut signed: Vec<(Shingle, u64)> = new.into_iter().map(|s| (s, 1)).collect();
    signed.extend(gone.into_iter().map(|s| (s, MINUS)));
    Plan {
        levels,
        width,
        list,
        more: cells(&signed, width),
        sender: None,
    }
}

fn changed_counts(levels: u64, width: u64, random: &mut Random) -> Plan {
    let few = random.between(0, 4) as usize;
    let common = list_length(random);
    let mut plan = differing(levels, width, few + 1, common + 1, random);
    let most = random.one_of(&[1, 3, width]);
    let changed = random.between(1, most) as usize;
    let mut signed = Vec::new();
    for old in some_of(&plan.list, changed, random) {
        let other = match random.between(0, 3) {
            0 => old.count % 4_096 + 1,
            1 => (old.count + 63) % 4_096 + 1,
            2 => (old.count + width - 1) % 4_096 + 1,
            _ => any_count(random),
        };
        signed.push((old, MINUS));
        signed.push((
            Shingle {
                count: other,
                ..old
            },
            1,
        ));
    }
    plan.add(&cells(&signed, width));
    plan
}

fn one_pair(levels: u64, random: &mut Random) -> Plan {
    let width = random.between(1, 8);
    let mut signed = Vec::new();
    for _ in 0..random.between(1, 3) {
        signed.extend(of_one_pair(levels, random));
    }
    let few = random.between(0, 4) as usize;
    let mut plan = differing(levels, width, 1, few, random);
    plan.add(&cells(&signed, width));
    // In half of the cases the list has what will be taken as negative.
    if random.between(0, 1) == 0 {
        let taken = takings(&plan.more, levels, width).taken;
        let negative = taken.iter().filter(|taken| taken.negative);
        let lacking: Vec<Shingle> = negative.map(|taken| taken.shingle).collect();
        plan.list.extend(lacking);
        plan.list.sort();
        plan.list.dedup();
    }
    plan
}

/// One or two pairs of the own list have another count, and some others are new or gone.
fn false_singles(levels: u64, random: &mut Random) -> Plan {
    let width = random.between(2, 8);
    let (changed, others) = (random.between(1, 2) as usize, random.between(1, 4) as usize);
    let mut all = list(changed + others + 1, levels, random);
    all.iter_mut().for_each(|s| s.count = random.between(1, 4));
    let mut signed = Vec::new();
    for old in all.drain(..changed).collect::<Vec<_>>() {
        let count = old.count % 4 + 1;
        signed.extend([(old, MINUS), (Shingle { count, ..old }, 1)]);
        all.push(old);
    }
    for other in all.drain(..others).collect::<Vec<_>>() {
        match random.between(0, 1) {
            0 => signed.push((other, 1)),
            _ => {
                signed.push((other, MINUS));
                all.push(other);
            }
        }
    }
    all.sort();
    Plan {
        levels,
        width,
        list: all,
        more: cells(&signed, width),
        sender: None,
    }
}

fn forged(forgery: Forgery, levels: u64, width: u64, random: &mut Random) -> Plan {
    let number = random.between(0, width.min(6)) as usize;
    let common = list_length(random);
    let mut plan = differing(levels, width, number, common, random);
    let times = random.one_of(&[1, MINUS]);
    let shingle = forge(forgery, levels, width, times, &mut plan.more, random);
    if times == MINUS && shingle.count != 0 {
        plan.list.push(shingle);
        plan.list.sort();
    }
    plan
}

fn wrong_side(family: Family, levels: u64, width: u64, random: &mut Random) -> Plan {
    let number = random.between(0, width.min(6)) as usize;
    let common = 1 + list_length(random);
    let mut plan = differing(levels, width, number, common, random);
    let mut wrong = match random.between(0, 1) {
        0 => shingle(levels, random),
        _ => some_of(&plan.list, 1, random)[0],
    };
    match family {
        // The shingle is in the list already, or it comes to be.
        Family::PositiveOwn => {
            if !plan.list.contains(&wrong) {
                plan.list.push(wrong);
                plan.list.sort();
            }
            plan.add(&cells(&[(wrong, 1)], width));
        }
        // The list has the pair with another count, or not at all.
        _ => {
            wrong.count = wrong.count % 4_096 + 1;
            plan.add(&cells(&[(wrong, MINUS)], width));
        }
    }
    plan
}

/// Some of what is odd, and some of the rest, is gone.
fn odd(oddity: Oddity, levels: u64, width: u64, random: &mut Random) -> Plan {
    let length = match random.between(0, 9) {
        0 => 4_096,
        _ => 1 + list_length(random),
    };
    let (mut list, odd) = odd_list(oddity, length, levels, random);
    list.truncate(4_096);
    let mut signed = Vec::new();
    let allowed = |s: &Shingle| s.level <= levels && s.count <= 4_096;
    if random.between(0, 3) > 0 {
        let all = random.between(0, 2) > 0;
        let gone = odd.iter().take(if all { odd.len() } else { 1 });
        signed.extend(gone.filter(|s| allowed(s)).map(|&s| (s, MINUS)));
    }
    if random.between(0, 2) == 0 {
        let more = some_of(&list, 2, random).into_iter();
        let more = more.filter(|s| allowed(s) && !odd.contains(s));
        signed.extend(more.map(|s| (s, MINUS)).collect::<Vec<_>>());
    }
    if random.between(0, 1) == 0 {
        signed.push((shingle(levels, random), 1));
    }
    Plan {
        levels,
        width,
        list,
        more: cells(&signed, width),
        sender: None,
    }
}

impl Plan {
    fn add(&mut self, more: &[Cell]) {
        for (cell, more) in self.more.iter_mut().zip(more) {
            *cell = plus(cell, more);
        }
    }

    /// The own cells: those of the list, as far as it has cells; or any.
    fn own(&self, random: &mut Random) -> Vec<Cell> {
        let with_cells = self.list.iter().filter(|s| s.tail() < 1 << 32);
        match random.between(0, 3) {
            0 => any_cells(self.width, random),
            _ => sketch(&with_cells.copied().collect::<Vec<_>>(), self.width),
        }
    }
}

/// Levels and widths at and past the ends of what 3 and 5 allow; also numbers that would be allowed if
/// only their low 8 or 32 bits were looked at.
const LEVELS: [u64; 9] = [0, 1, 4, 5, 6, 256 + 1, (1 << 32) + 1, 1 << 63, u64::MAX];
const WIDTHS: [u64; 11] = [
    0,
    1,
    2,
    63,
    64,
    65,
    256 + 1,
    (1 << 32) + 1,
    1 << 61,
    (1 << 61) + 1,
    u64::MAX,
];

fn lent(family: Family, place: usize, seed: u64, number: usize, random: &mut Random) -> Case {
    let plan = plan(family, place, random);
    let own = plan.own(random);
    let theirs: Vec<Cell> = own
        .iter()
        .zip(&plan.more)
        .map(|(a, b)| plus(a, b))
        .collect();
    let (mut levels, mut width) = (plan.levels, plan.width);
    let mut theirs = cell_bytes(&theirs, random);
    let mut own = cell_bytes(&own, random);
    let mut shingles = table(&plan.list, family == Family::Long, random);
    if family == Family::Questions {
        levels = random.one_of(&[levels, LEVELS[place % LEVELS.len()]]);
        width = random.one_of(&[width, WIDTHS[place / LEVELS.len() % WIDTHS.len()]]);
    }
    if matches!(family, Family::Questions | Family::Sizes) {
        let cells = 120 * width.clamp(1, 64) as usize;
        let which = random.between(0, 4);
        let questions = family == Family::Questions;
        if which == 0 || questions {
            resize(&mut theirs, cells, 40, random);
        }
        if which == 1 || questions {
            resize(&mut own, cells, 40, random);
        }
        if which == 2 || questions {
            resize(&mut shingles, 98_304, 24, random);
        }
    }
    Case {
        seed,
        number,
        family,
        levels,
        width,
        theirs,
        own,
        shingles,
        sender: plan.sender,
        shifts: [0; 3].map(|_: usize| random.between(0, 15) as usize),
    }
}

/// A size around the limit, or any.
fn resize(bytes: &mut Vec<u8>, limit: usize, entry: usize, random: &mut Random) {
    let short = random.between(0, limit as u64 - 1) as usize;
    let sizes = [
        0,
        short,
        limit - entry,
        limit - 1,
        limit,
        limit,
        limit + 1,
        limit + entry,
    ];
    bytes.resize(random.one_of(&sizes), 0);
}

/// The cells, and in some cases more bytes after them.
fn cell_bytes(cells: &[Cell], random: &mut Random) -> Vec<u8> {
    let mut bytes: Vec<u8> = cells.iter().flat_map(cell_table::bytes).collect();
    let more = random.one_of(&[0, 0, 0, 1, 39, 40, 200]);
    bytes.extend(random.bytes(more));
    bytes
}
