//! Orders of ids, and the multisets of pairs that they leave.

use crate::random::Random;
use reference::eulerian::trails_from;
use reference::trail::{multiset, pairs, Multiset};

/// Mixes a list.
pub fn shuffle<T>(list: &mut [T], random: &mut Random) {
    for k in 1..list.len() {
        list.swap(k, random.between(0, k as u64) as usize);
    }
}

/// Different ids, none 0, in any order. Small ones; any; alike but for one byte; around 2^63, where
/// signed numbers end; the largest; and such that the first byte rises where the last one falls.
pub fn different_ids(count: usize, random: &mut Random) -> Vec<u64> {
    let style = random.between(0, 5);
    let alike = random.number();
    let byte = random.between(0, 7);
    let id = |k: u64, random: &mut Random| match style {
        0 => 1 + k,
        1 => random.number() | 1,
        2 => alike & !(255 << (8 * byte)) | (1 + k) << (8 * byte),
        3 => (1 << 63) - 20 + k,
        4 => u64::MAX - k,
        _ => (1 + k) << 56 | (255 - k),
    };
    let mut ids: Vec<u64> = (0..count as u64).map(|k| id(k, random)).collect();
    shuffle(&mut ids, random);
    ids
}

/// So many ids, all but some of them different: first each once, then some of them again anywhere.
pub fn with_repeats(length: usize, repeats: usize, random: &mut Random) -> Vec<u64> {
    let mut ids = different_ids(length - repeats, random);
    for _ in 0..repeats {
        let again = random.one_of(&ids);
        let place = random.between(0, ids.len() as u64) as usize;
        ids.insert(place, again);
    }
    ids
}

/// So many ids, each any of a few.
pub fn of_few_ids(length: usize, few: usize, random: &mut Random) -> Vec<u64> {
    let ids = different_ids(few, random);
    (0..length).map(|_| random.one_of(&ids)).collect()
}

/// From a middle to each of some points and back.
pub fn star(points: usize, random: &mut Random) -> Vec<u64> {
    let ids = different_ids(points + 1, random);
    let back = |&point: &u64| [point, ids[0]];
    let points = ids[1..].iter().flat_map(back);
    [ids[0]].into_iter().chain(points).collect()
}

/// How many trails there are over the pairs of an order.
pub fn trails(order: &[u64]) -> u128 {
    trails_from(0, &multiset(&pairs(order)))
}

/// An order of 1 to 32 ids over whose pairs there are at most so many trails.
pub fn with_few_trails(most: u128, random: &mut Random) -> Vec<u64> {
    let length = match random.between(0, 5) {
        0 => 32,
        1 => random.between(1, 6) as usize,
        _ => random.between(1, 32) as usize,
    };
    let mut repeats = random.between(0, 10).min(length as u64 - 1) as usize;
    loop {
        let order = with_repeats(length, repeats, random);
        if trails(&order) <= most {
            return order;
        }
        repeats -= 1;
    }
}

/// An order of 2 to 32 ids, some of them again, over whose pairs there are exactly so many trails.
pub fn with_so_many_trails(count: u128, random: &mut Random) -> Vec<u64> {
    loop {
        let length = match random.between(0, 3) {
            0 => 32,
            1 => random.between(2, 8) as usize,
            _ => random.between(2, 32) as usize,
        };
        let repeats = random.between(1, (length as u64 / 2).min(6)) as usize;
        let order = with_repeats(length, repeats, random);
        if trails(&order) == count {
            return order;
        }
    }
}

/// An order of up to 32 ids over whose pairs there are more than so many trails.
pub fn with_many_trails(least: u128, random: &mut Random) -> Vec<u64> {
    loop {
        let length = random.between(16, 32) as usize;
        let order = match random.between(0, 3) {
            0 => star((length - 1) / 2, random),
            1 => {
                let repeats = random.between(6, 14) as usize;
                with_repeats(length, repeats, random)
            }
            _ => {
                let few = random.between(2, 9) as usize;
                of_few_ids(length, few, random)
            }
        };
        if trails(&order) > least {
            return order;
        }
    }
}

/// A multiset as entries of previous id, own id and count, in any order: some counts parted among
/// several entries, and some entries that hold nothing.
pub fn entries(over: &Multiset, random: &mut Random) -> Vec<[u64; 3]> {
    let parted = random.between(0, 1) == 0;
    let mut entries = Vec::new();
    for (&(previous, own), &count) in over {
        let mut left = count;
        while left > 0 {
            let part = if parted {
                random.between(1, left)
            } else {
                left
            };
            entries.push([previous, own, part]);
            left -= part;
        }
    }
    if random.between(0, 2) == 0 && entries.len() < 32 {
        for _ in 0..random.between(1, 32 - entries.len() as u64) {
            let nothing = nothing(&entries, random);
            entries.push(nothing);
        }
    }
    shuffle(&mut entries, random);
    entries
}

/// An entry of count 0: with ids that stand elsewhere, or with any.
fn nothing(entries: &[[u64; 3]], random: &mut Random) -> [u64; 3] {
    let id = |random: &mut Random| match random.between(0, 3) {
        0 if !entries.is_empty() => random.one_of(entries)[0],
        1 if !entries.is_empty() => random.one_of(entries)[1],
        2 => 0,
        _ => random.number(),
    };
    [id(random), id(random), 0]
}
