//! Lists of shingles and their tables, and cells that differ by signed shingles.

use crate::content::{self, KINDS};
use crate::random::Random;
use crate::settings::any_allowed;
#[cfg(test)]
use reference::cell_table::{self, CELL_BYTES};
use reference::shingle::{shingles, Shingle};
use reference::shingle_table::entry;
use reference::sketch::{part, places, Cell};
use reference::tree::tree;
use std::collections::BTreeSet;

/// How often a shingle is added to the cells, modulo 2^64: 1 for a positive one, −1 for a negative one.
pub type Signed = (Shingle, u64);

/// −1 modulo 2^64.
pub const MINUS: u64 = u64::MAX;

/// The largest level that a tail of 64 bits has.
const LARGEST_LEVEL: u64 = (1 << 48) - 1;

/// An id: mostly any, some of them small or 0.
pub fn id(random: &mut Random) -> u64 {
    match random.between(0, 7) {
        0 => random.between(0, 3),
        1 => u64::MAX - random.between(0, 3),
        _ => random.number(),
    }
}

/// A count from 1 to 4,096, mostly small.
pub fn count(random: &mut Random) -> u64 {
    match random.between(0, 5) {
        0 => random.one_of(&[255, 256, 257, 4_095, 4_096]),
        1 => random.by_size(1, 4_096),
        _ => random.between(1, 3),
    }
}

/// Any shingle that may be taken.
pub fn shingle(levels: u64, random: &mut Random) -> Shingle {
    Shingle {
        level: random.between(0, levels),
        previous: id(random),
        own: id(random),
        count: count(random),
    }
}

/// So many shingles, no pair of a level twice, sorted. A share of the ids occurs several times.
pub fn list(length: usize, levels: u64, random: &mut Random) -> Vec<Shingle> {
    let some: Vec<u64> = (0..4).map(|_| id(random)).collect();
    let mut pairs = BTreeSet::new();
    let mut list = Vec::new();
    while list.len() < length {
        let mut next = shingle(levels, random);
        if random.between(0, 3) == 0 {
            next.previous = random.one_of(&some);
        }
        if pairs.insert(next.pair()) {
            list.push(next);
        }
    }
    list.sort();
    list
}

/// The string with some bytes changed, put in or taken out, or as it is.
pub fn edited(string: &[u8], random: &mut Random) -> Vec<u8> {
    let mut edited = string.to_vec();
    for _ in 0..random.between(0, 3) {
        let place = random.between(0, edited.len() as u64) as usize;
        match random.between(0, 2) {
            0 => edited.insert(place, random.number() as u8),
            1 if place < edited.len() => drop(edited.remove(place)),
            _ if place < edited.len() => edited[place] = random.number() as u8,
            _ => {}
        }
    }
    edited
}

/// The lists of a string and of the string with some bytes changed, cut with the same settings.
pub fn of_strings(random: &mut Random) -> (u64, Vec<Shingle>, Vec<Shingle>) {
    let settings = any_allowed(random);
    let kind = random.one_of(&KINDS);
    let length = random.by_size(0, 800) as usize;
    let own = content::string(kind, length, random);
    let theirs = edited(&own, random);
    let of = |string: &[u8]| shingles(&tree(&settings, string));
    (settings.levels, of(&own), of(&theirs))
}

/// What one list has and the other lacks, as positive, and the reverse, as negative.
pub fn difference(own: &[Shingle], theirs: &[Shingle]) -> Vec<Signed> {
    let lacking = |all: &[Shingle], other: &[Shingle]| -> Vec<Shingle> {
        let other: BTreeSet<&Shingle> = other.iter().collect();
        all.iter().filter(|s| !other.contains(s)).copied().collect()
    };
    let positive = lacking(theirs, own).into_iter().map(|s| (s, 1));
    let negative = lacking(own, theirs).into_iter().map(|s| (s, MINUS));
    positive.chain(negative).collect()
}

/// Adds what a shingle's cells get, so often, to one cell.
pub fn add_part(cell: &mut Cell, part: &Cell, times: u64) {
    for (sum, value) in cell.iter_mut().zip(part) {
        *sum = sum.wrapping_add(value.wrapping_mul(times));
    }
}

/// The cells of signed shingles.
pub fn cells(signed: &[Signed], width: u64) -> Vec<Cell> {
    let mut cells = vec![[0; 5]; 3 * width as usize];
    for (shingle, times) in signed {
        for place in places(shingle, width) {
            add_part(&mut cells[place], &part(shingle), *times);
        }
    }
    cells
}

/// So many shingles taken out of a list, in any order.
pub fn some_of(list: &[Shingle], count: usize, random: &mut Random) -> Vec<Shingle> {
    let mut rest = list.to_vec();
    let mut some = Vec::new();
    while some.len() < count && !rest.is_empty() {
        let place = random.between(0, rest.len() as u64 - 1) as usize;
        some.push(rest.swap_remove(place));
    }
    some
}

/// A list in any order.
pub fn shuffled(list: &[Shingle], random: &mut Random) -> Vec<Shingle> {
    some_of(list, list.len(), random)
}

/// The list, an entry of count 0 where there is room, and after it zeros or any bytes. A long table
/// has room for the whole list, and in some cases none for the entry that ends it.
pub fn table(list: &[Shingle], long: bool, random: &mut Random) -> Vec<u8> {
    let mut bytes: Vec<u8> = list.iter().flat_map(entry).collect();
    let end = Shingle {
        level: random.one_of(&[0, 1, LARGEST_LEVEL]),
        previous: random.number(),
        own: random.number(),
        count: 0,
    };
    let more = random.one_of(&[0, 0, 0, 1, 23, 24, 25, 100]);
    let length = match long {
        true => 98_304.max(bytes.len()) + more,
        false => 98_304 + more,
    };
    bytes.extend(match random.between(0, 2) {
        0 => [0; 24],
        _ => entry(&end),
    });
    let rest = length.saturating_sub(bytes.len());
    bytes.extend(match random.between(0, 2) {
        0 => vec![0; rest],
        _ => random.bytes(rest),
    });
    bytes.truncate(length);
    bytes
}

/// The 3q cells of a table, 0 where it ends: what a function reads that has not asked for the table's length.
#[cfg(test)]
pub fn cells_there(table: &[u8], width: u64) -> Vec<Cell> {
    let needed = 3 * width as usize * CELL_BYTES;
    let mut table = table.to_vec();
    table.resize(table.len().max(needed), 0);
    cell_table::read(&table, width)
}
