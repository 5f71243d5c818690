//! The cases: orders to be numbered, and multisets with a number to be ordered, each made from the
//! seed and the case's number alone.
//!
//! A search may have to walk every trail before the numbered one, so that most cases have few
//! trails, and some hundred have thousands.

use super::orders::*;
use crate::failure::first_bytes;
use crate::random::{family_of, together, Random};
use reference::trail::{multiset, pairs, trail, Multiset};
use std::fmt;

/// What is lent to a call.
pub enum Lent {
    /// To `rcds_trail_number`.
    Order { ids: Vec<u8> },
    /// To `rcds_trail_order`, with so many bytes for the ids.
    Multiset {
        pairs: Vec<u8>,
        number: u64,
        room: usize,
    },
}

/// One call.
pub struct Case {
    pub seed: u64,
    pub number: usize,
    pub family: Family,
    pub lent: Lent,
}

impl fmt::Display for Case {
    fn fmt(&self, f: &mut fmt::Formatter) -> fmt::Result {
        let family = self.family;
        match &self.lent {
            Lent::Order { ids } => {
                let bytes = first_bytes(ids, 256);
                write!(f, "{family:?}, ids of {} bytes:{bytes}", ids.len())
            }
            Lent::Multiset {
                pairs,
                number,
                room,
            } => {
                let bytes = first_bytes(pairs, 768);
                let length = pairs.len();
                write!(
                    f,
                    "{family:?}, number {number}, room of {room} bytes, pairs of {length} bytes:{bytes}"
                )
            }
        }
    }
}

/// What a case is.
#[derive(Clone, Copy, Debug, PartialEq, Eq, PartialOrd, Ord)]
pub enum Family {
    /// Every order of up to 6 ids, each of three.
    EveryOrder,
    /// An order over whose pairs there are few trails.
    Order,
    /// An order with a number up to 4,095.
    OrderOfAnyNumber,
    /// An order with a number around 4,095.
    OrderAtTheLimit,
    /// Any order of few ids, most with a number far above 4,095.
    OrderOfFewIds,
    /// An order with repeated ids whose trail is the only one, or one of two.
    OrderOfOneOrTwo,
    /// No ids, more than 32, one that is 0, or bytes that are no whole ids.
    NoOrder,
    /// Every multiset of the pairs of 0 and two ids, each at most twice.
    EveryMultiset,
    /// The pairs of an order, over which there are few trails.
    Multiset,
    /// The same, with id 0 in the order.
    MultisetWithId0,
    /// The pairs of an order with one of them more, fewer or changed.
    Unbalanced,
    /// The pairs of an order and of a closed walk, which may have an id in common.
    Disconnected,
    /// Counts that add up to 1 to 32 modulo a power of two only.
    HugeCounts,
    /// Bytes that are no whole entries, more than 32 entries, and full tables.
    Lengths,
    /// Counts that add up to about 32.
    Sums,
    /// Numbers from 4,096 on.
    LargeNumbers,
    /// Any number up to 4,095.
    MultisetOfAnyNumber,
    /// A number around 4,095, or around the number of trails.
    MultisetAtTheLimit,
    /// The pairs of an order with repeated ids whose trail is the only one, or one of two; number 0, 1 or 2.
    MultisetOfOneOrTwo,
}

/// How many orders of up to 6 ids there are, each of three.
const EVERY_ORDER: usize = 3 + 9 + 27 + 81 + 243 + 729;

/// The families, and how many cases each has.
const FAMILIES: [(Family, usize); 19] = [
    (Family::EveryOrder, 2 * EVERY_ORDER),
    (Family::Order, 36_000),
    (Family::OrderOfAnyNumber, 200),
    (Family::OrderAtTheLimit, 80),
    (Family::OrderOfFewIds, 50),
    (Family::OrderOfOneOrTwo, 4_000),
    (Family::NoOrder, 8_000),
    (Family::EveryMultiset, 3 * 3 * 3 * 3 * 3 * 3 * 3 * 3 * 3),
    (Family::Multiset, 22_000),
    (Family::MultisetWithId0, 6_000),
    (Family::Unbalanced, 6_000),
    (Family::Disconnected, 4_000),
    (Family::HugeCounts, 4_000),
    (Family::Lengths, 4_000),
    (Family::Sums, 2_000),
    (Family::LargeNumbers, 1_500),
    (Family::MultisetOfAnyNumber, 200),
    (Family::MultisetAtTheLimit, 90),
    (Family::MultisetOfOneOrTwo, 4_000),
];

/// Trails of the cases that have few.
const FEW: u128 = 100;

/// All families.
pub fn families() -> impl Iterator<Item = Family> {
    FAMILIES.iter().map(|&(family, _)| family)
}

/// How many cases a run has.
pub fn count() -> usize {
    together(FAMILIES)
}

/// The case of this number.
pub fn case(seed: u64, number: usize) -> Case {
    let (family, place) = family_of(FAMILIES, number);
    let mut random = Random::of_case(seed, number);
    Case {
        seed,
        number,
        family,
        lent: lent(family, place, &mut random),
    }
}

fn bytes<'a>(rows: impl IntoIterator<Item = &'a u64>) -> Vec<u8> {
    rows.into_iter().flat_map(|row| row.to_be_bytes()).collect()
}

fn lent(family: Family, place: usize, random: &mut Random) -> Lent {
    let ids = match family {
        Family::EveryOrder => bytes(&every_order(place % EVERY_ORDER, random)),
        Family::Order => bytes(&with_few_trails(FEW, random)),
        Family::OrderOfAnyNumber => {
            let number = random.by_size(0, 4_095);
            bytes(&order_of(u128::from(number), random))
        }
        Family::OrderAtTheLimit => {
            let number = random.one_of(&[4_094, 4_095, 4_095, 4_096, 4_096, 4_097]);
            bytes(&order_of(number, random))
        }
        Family::OrderOfFewIds => {
            let (length, few) = (random.between(10, 32), random.between(2, 6));
            bytes(&of_few_ids(length as usize, few as usize, random))
        }
        Family::OrderOfOneOrTwo => bytes(&with_so_many_trails(1 + place as u128 % 2, random)),
        Family::NoOrder => no_order(random),
        _ => return lent_multiset(family, place, random),
    };
    Lent::Order { ids }
}

/// The orders one after the other: those of one id, those of two, and so on.
fn every_order(place: usize, random: &mut Random) -> Vec<u64> {
    let (mut length, mut orders, mut place) = (1, 3, place);
    while place >= orders {
        place -= orders;
        orders *= 3;
        length += 1;
    }
    let mut ids = different_ids(3, random);
    ids.sort();
    (0..length)
        .map(|k| ids[place / 3_usize.pow(k) % 3])
        .collect()
}

/// An order that has this number.
fn order_of(number: u128, random: &mut Random) -> Vec<u64> {
    let any = with_many_trails(number, random);
    trail(&multiset(&pairs(&any)), number).expect("so many trails")
}

fn no_order(random: &mut Random) -> Vec<u8> {
    let mut ids = with_few_trails(FEW, random);
    match random.between(0, 3) {
        0 => {
            let zero = random.between(0, ids.len() as u64 - 1) as usize;
            ids[zero] = 0;
            bytes(&ids)
        }
        1 => {
            let length = random.one_of(&[0, 31, 32, 33, 33, 34, 40, 64, 255]);
            bytes(&different_ids(length, random))
        }
        2 => {
            let mut bytes = bytes(&ids);
            bytes.truncate(bytes.len() - random.between(1, 7) as usize);
            bytes
        }
        _ => {
            let mut bytes = bytes(&ids);
            bytes.extend(vec![1; random.between(1, 7) as usize]);
            bytes
        }
    }
}

fn lent_multiset(family: Family, place: usize, random: &mut Random) -> Lent {
    let few = |random: &mut Random| with_few_trails(FEW, random);
    let (entries, number) = match family {
        Family::EveryMultiset => (every_multiset(place, random), random.between(0, 3)),
        Family::Multiset | Family::Lengths => {
            let order = few(random);
            let number = around(trails(&order) as u64, random);
            (entries(&multiset(&pairs(&order)), random), number)
        }
        Family::MultisetWithId0 => {
            let over = with_id_0(random);
            (entries(&over, random), random.by_size(0, 30))
        }
        Family::Unbalanced => {
            let over = unbalanced(&few(random), random);
            (entries(&over, random), random.by_size(0, 8))
        }
        Family::Disconnected => {
            let over = disconnected(random);
            (entries(&over, random), random.by_size(0, 30))
        }
        Family::HugeCounts => {
            let over = multiset(&pairs(&few(random)));
            (huge_counts(&over, random), random.by_size(0, 8))
        }
        Family::Sums => (sums(random), random.by_size(0, 3)),
        Family::LargeNumbers => {
            let order = match place % 2 {
                0 => few(random),
                _ => with_many_trails(4_200, random),
            };
            let over = multiset(&pairs(&order));
            (entries(&over, random), large_number(random))
        }
        Family::MultisetOfAnyNumber => {
            let number = random.by_size(0, 4_095);
            let order = with_many_trails(u128::from(number), random);
            (entries(&multiset(&pairs(&order)), random), number)
        }
        Family::MultisetOfOneOrTwo => {
            let order = with_so_many_trails(1 + place as u128 % 2, random);
            let number = random.one_of(&[0, 0, 0, 1, 1, 2]);
            (entries(&multiset(&pairs(&order)), random), number)
        }
        _ => at_the_limit(place, random),
    };
    let table = bytes(entries.iter().flatten());
    let sum = entries
        .iter()
        .fold(0_u64, |sum, entry| sum.wrapping_add(entry[2]));
    Lent::Multiset {
        pairs: match family {
            Family::Lengths => other_length(table, random),
            _ => table,
        },
        number,
        room: room(sum, random),
    }
}

/// A number that a trail has, or one that is just too large.
fn around(trails: u64, random: &mut Random) -> u64 {
    match random.between(0, 3) {
        0 => trails - 1,
        1 => trails + random.between(0, 1),
        _ => random.between(0, trails - 1),
    }
}

/// The multiset of this number: how often each of the nine pairs occurs is a digit of it.
fn every_multiset(place: usize, random: &mut Random) -> Vec<[u64; 3]> {
    let mut ids = different_ids(2, random);
    ids.push(0);
    let mut over = Multiset::new();
    for pair in 0..9 {
        let count = place / 3_usize.pow(pair) % 3;
        let (previous, own) = (ids[pair as usize / 3], ids[pair as usize % 3]);
        if count > 0 {
            over.insert((previous, own), count as u64);
        }
    }
    entries(&over, random)
}

/// The pairs of an order in which some ids are 0, with few trails.
fn with_id_0(random: &mut Random) -> Multiset {
    loop {
        let mut order = with_few_trails(FEW, random);
        for _ in 0..random.between(1, 3) {
            let zero = random.between(0, order.len() as u64 - 1) as usize;
            order[zero] = 0;
        }
        if trails(&order) <= FEW {
            return multiset(&pairs(&order));
        }
    }
}

fn unbalanced(order: &[u64], random: &mut Random) -> Multiset {
    let mut all = pairs(order);
    let changed = random.between(0, all.len() as u64 - 1) as usize;
    let other = random.one_of(&all);
    let any = random.number();
    match random.between(0, 6) {
        0 => drop(all.remove(changed)),
        1 => all.push(all[changed]),
        2 => all[changed].0 = other.1,
        3 => all[changed].1 = other.0,
        4 => all[changed].0 = any,
        5 => all[changed].1 = any,
        _ => all[changed] = (all[changed].1, all[changed].0),
    }
    all.truncate(32);
    multiset(&all)
}

/// The pairs of an order, and those of a closed walk beside it or, in some cases, through it.
fn disconnected(random: &mut Random) -> Multiset {
    loop {
        let order = with_few_trails(FEW, random);
        let length = random.between(1, 6) as usize;
        if order.len() + length > 32 {
            continue;
        }
        let mut walk = different_ids(length, random);
        if random.between(0, 2) == 0 {
            walk[0] = random.one_of(&order);
        }
        let next = walk[1..].iter().chain(&walk[..1]);
        let mut all = pairs(&order);
        all.extend(walk.iter().copied().zip(next.copied()));
        return multiset(&all);
    }
}

/// The pairs of an order with counts that are theirs modulo 2^64, 2^32, 2^16 or 2^8 only; or with
/// counts so large that nothing is left of them.
fn huge_counts(over: &Multiset, random: &mut Random) -> Vec<[u64; 3]> {
    let mut entries = entries(over, random);
    entries.truncate(30);
    let place = random.between(0, entries.len() as u64 - 1) as usize;
    let [previous, own, count] = entries[place];
    let large = random.by_size(33, u64::MAX);
    match random.between(0, 5) {
        0 => entries[place][2] = count.wrapping_add(1 << random.one_of(&[8, 16, 32, 63])),
        1 => entries[place][2] = large,
        2 => entries[place][2] = u64::MAX - random.between(0, 40),
        3 => entries.extend([[previous, own, 1 << 63]; 2]),
        _ => {
            entries[place][2] = large;
            entries.push([previous, own, count.wrapping_sub(large)]);
        }
    }
    shuffle(&mut entries, random);
    entries
}

/// Entries of different pairs whose counts add up to 31 to 34, or more.
fn sums(random: &mut Random) -> Vec<[u64; 3]> {
    let length = random.one_of(&[31, 32, 32, 33, 33, 34, 40, 70]);
    let different = random.between(2, 24) as usize;
    let mut order = different_ids(different, random);
    let last = order[different - 1];
    order.resize(length, last);
    let over = multiset(&pairs(&order));
    let mut entries: Vec<[u64; 3]> = over.iter().map(|(&(a, b), &count)| [a, b, count]).collect();
    shuffle(&mut entries, random);
    entries
}

/// A number that is too large, and often a small one modulo a power of two.
fn large_number(random: &mut Random) -> u64 {
    let small = random.between(0, 2);
    match random.between(0, 3) {
        0 => small + (1 << random.between(12, 63)),
        1 => 4_096 + small,
        2 => u64::MAX - small,
        _ => random.by_size(4_096, u64::MAX),
    }
}

/// A number around 4,095 over a multiset with more trails; or a number around that of the trails.
fn at_the_limit(place: usize, random: &mut Random) -> (Vec<[u64; 3]>, u64) {
    let (least, number) = match place % 3 {
        0 => (4_200, random.one_of(&[4_094, 4_095, 4_095])),
        1 => (4_095, random.one_of(&[4_095, 4_095, 4_096, 4_097])),
        _ => (500, 0),
    };
    loop {
        let order = with_many_trails(least, random);
        let trails = trails(&order);
        let over = multiset(&pairs(&order));
        if number > 0 {
            return (entries(&over, random), number);
        }
        if trails <= 4_095 {
            let number = random.one_of(&[trails as u64 - 1, trails as u64]);
            return (entries(&over, random), number);
        }
    }
}

/// The table cut, lengthened, or filled up with entries that hold nothing: 32 in all, or more.
fn other_length(mut table: Vec<u8>, random: &mut Random) -> Vec<u8> {
    let entries = random.one_of(&[32, 32, 33, 34, 64, 100]);
    match random.between(0, 3) {
        0 => table.truncate(table.len() - random.between(1, 23) as usize),
        1 => table.extend(vec![0; random.between(1, 23) as usize]),
        2 => table.resize(24 * entries, 0),
        _ => table.truncate(24 * random.between(0, table.len() as u64 / 24) as usize),
    }
    table
}

/// Room for the ids of a sum, or more, or not quite enough.
fn room(sum: u64, random: &mut Random) -> usize {
    let needed = 8 * sum.min(40) as usize;
    match random.between(0, 9) {
        0 => needed.saturating_sub(1),
        1 => needed.saturating_sub(random.between(0, 256) as usize),
        2 => needed + random.between(1, 20) as usize,
        3..=5 => needed,
        _ => 256,
    }
}
