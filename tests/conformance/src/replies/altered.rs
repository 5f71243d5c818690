//! What is lent otherwise than the setup left it: another string, tables with other content.

use super::setup::Sender;
use crate::random::Random;
use reference::node_table;
use reference::shingle::Shingle;
use reference::shingle_table;

/// How many kinds `other_string` has.
pub const OTHER_STRINGS: usize = 9;

/// Another string than at setup: shorter, longer, empty, or of other bytes.
pub fn other_string(string: &[u8], place: usize, random: &mut Random) -> Vec<u8> {
    let length = string.len();
    let mut other = string.to_vec();
    match place % OTHER_STRINGS {
        0 => other.clear(),
        1 => other.truncate(length.saturating_sub(1)),
        2 | 3 => other.truncate(random.between(0, length as u64) as usize),
        4 => other.push(random.number() as u8),
        5 => {
            let more = random.one_of(&[1, 100, 5_000]);
            other.extend(random.bytes(more));
        }
        6 => other = random.bytes(length),
        7 => {
            let place = random.between(0, length as u64) as usize;
            let byte = random.number() as u8;
            other.get_mut(place).into_iter().for_each(|b| *b ^= byte);
        }
        _ => other.resize(random.one_of(&[65_536, 65_537, 70_000]), 7),
    }
    other
}

/// Cells of any bytes: all, some, or one bit.
pub fn cells(cells: &mut [u8], random: &mut Random) {
    let length = cells.len();
    match random.between(0, 2) {
        0 => cells.copy_from_slice(&random.bytes(length)),
        1 => {
            for _ in 0..random.between(1, 20) {
                cells[random.between(0, length as u64 - 1) as usize] = random.number() as u8;
            }
        }
        _ => cells[random.between(0, length as u64 - 1) as usize] ^= 1 << random.between(0, 7),
    }
}

/// A node table that no setup left: entries changed, exchanged, put in or taken out, or any bytes.
pub fn nodes(sender: &mut Sender, random: &mut Random) {
    let mut nodes = sender.nodes();
    let most = sender.lent.string.len() as u64 + 8;
    let any_place =
        |count: usize, random: &mut Random| random.between(0, count as u64 - 1) as usize;
    if random.between(0, 7) == 0 {
        sender.lent.nodes = random.bytes(sender.lent.nodes.len());
        return;
    }
    for _ in 0..random.one_of(&[1, 1, 2, 5, 40]) {
        let place = any_place(nodes.len(), random);
        match random.between(0, 10) {
            0 => nodes[place].level = random.between(0, 7),
            1 => nodes[place].start = random.between(0, most) as usize,
            2 => nodes[place].length = random.between(0, most) as usize,
            3 => nodes[place].id = random.one_of(&[0, 1, u64::MAX]),
            4 => nodes[place].id = random.one_of(&nodes).id,
            5 => nodes.insert(place, random.one_of(&nodes.clone())),
            6 if nodes.len() > 1 => drop(nodes.remove(place)),
            7 => nodes[place].start = (1 << 17) - 1,
            8 => nodes[place].parent = random.between(0, 4_095) as usize,
            9 => nodes[place].place = random.between(0, 31) as usize,
            _ => {
                let other = any_place(nodes.len(), random);
                nodes.swap(place, other);
            }
        }
    }
    // More than 32 children, or one level under every other.
    if random.between(0, 5) == 0 {
        let level = random.between(0, 4);
        let again = random.between(30, 70) as usize;
        let one = random.one_of(&nodes);
        nodes.extend((0..again).map(|_| reference::tree::Node { level, ..one }));
    }
    node_table::write(&nodes, &mut sender.lent.nodes);
}

/// A shingle table that no setup left: entries changed, exchanged, repeated or taken out, or any
/// bytes.
pub fn shingles(sender: &mut Sender, random: &mut Random) {
    let table = &mut sender.lent.shingles;
    let mut list = shingle_table::read(table);
    match random.between(0, 9) {
        0 => *table = random.bytes(table.len()),
        1 => table.fill(0),
        _ => {
            for _ in 0..random.one_of(&[1, 1, 2, 5, 40]) {
                change(&mut list, random);
            }
            list.truncate(4_096);
            shingle_table::write(&list, table);
        }
    }
}

/// The sender's list behind so many other entries that some of its indexes have more than 12 bits.
pub fn late_shingles(sender: &mut Sender, random: &mut Random) {
    let list = sender.lent.shingle_list();
    let other = Shingle {
        level: 9,
        previous: 1,
        own: 1,
        count: 1,
    };
    let mut late = vec![other; random.between(4_000, 4_100) as usize];
    late.extend(list);
    let table = &mut sender.lent.shingles;
    *table = late.iter().flat_map(shingle_table::entry).collect();
    table.resize(table.len().max(98_304), 0);
}

fn change(list: &mut Vec<Shingle>, random: &mut Random) {
    if list.is_empty() {
        return;
    }
    let place = random.between(0, list.len() as u64 - 1) as usize;
    let other = random.between(0, list.len() as u64 - 1) as usize;
    match random.between(0, 6) {
        0 => list[place].level = random.by_size(0, (1 << 48) - 1),
        1 => list[place].count = random.between(0, 65_535),
        2 => list[place].own = list[other].own,
        3 => list[place].previous = random.number(),
        4 => list.swap(place, other),
        5 => drop(list.remove(place)),
        _ => {
            let again = list[place];
            let times = random.one_of(&[1, 2, 33, 40]);
            list.extend((0..times).map(|_| again));
        }
    }
}
