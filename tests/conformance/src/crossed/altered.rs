//! Node tables, as a setup leaves them and otherwise.

use crate::random::Random;
use reference::node_table;
use reference::tree::Node;

/// The entries of the nodes.
pub fn table(nodes: &[Node]) -> Vec<u8> {
    nodes.iter().flat_map(node_table::entry).collect()
}

/// How a table goes on after its nodes: with zeros as after a setup, which needs 65,536 bytes; with a part of
/// an entry; with an id 0 and any bytes; or not at all.
pub fn lengthen(table: &mut Vec<u8>, random: &mut Random) {
    let full = table.len().max(65_536);
    match random.between(0, 7) {
        0..=2 => table.resize(full, 0),
        3 => table.resize(full + random.one_of(&[1, 15, 16, 40]), 0),
        4 => {
            let part = random.between(1, 15) as usize;
            table.extend(random.bytes(part));
        }
        5 => {
            let more = random.between(0, 200) as usize;
            table.extend([0; 8]);
            table.extend(random.bytes(more));
        }
        _ => {}
    }
}

/// Entries changed, exchanged, put in or taken out, over a string of so many bytes.
pub fn entries(nodes: &mut Vec<Node>, string: usize, random: &mut Random) {
    for _ in 0..random.one_of(&[1, 1, 2, 5, 40]) {
        let last = nodes.len() as u64 - 1;
        let [k, other] = [0; 2].map(|_: u8| random.between(0, last) as usize);
        let end = string.saturating_sub(nodes[k].start);
        match random.between(0, 13) {
            0 => nodes[k].level = random.between(0, 7),
            1 => nodes[k].start = random.between(0, string as u64 + 8) as usize,
            2 => nodes[k].length = random.between(0, string as u64 + 8) as usize,
            3 => nodes[k].length = 0,
            // Up to the string's end, and one byte past it.
            4 => nodes[k].length = end.min((1 << 17) - 1),
            5 => nodes[k].length = (end + 1).min((1 << 17) - 1),
            6 => nodes[k].start = random.one_of(&[string.min((1 << 17) - 1), (1 << 17) - 1]),
            7 => nodes[k].id = random.one_of(&[0, 1, 1 << 32, u64::MAX]),
            8 => nodes[k].parent = random.between(0, 4_095) as usize,
            9 => nodes[k].parent = k % 4_096,
            10 => nodes[k].place = random.between(0, 31) as usize,
            11 => nodes.insert(k, nodes[other]),
            12 if last > 0 => drop(nodes.remove(k)),
            _ => nodes.swap(k, other),
        }
    }
}

/// Some bits of the entries in use.
pub fn bits(table: &mut [u8], random: &mut Random) {
    for _ in 0..random.one_of(&[1, 2, 3, 10, 60]) {
        let place = random.between(0, table.len() as u64 - 1) as usize;
        table[place] ^= 1 << random.between(0, 7);
    }
}

/// An entry whose id is 0, somewhere before the end: all of it, or the id alone.
pub fn ended(table: &mut [u8], random: &mut Random) {
    let last = table.len() as u64 / 16 - 1;
    let start = 16 * random.between(0, last) as usize;
    let zeros = random.one_of(&[8, 8, 16]);
    table[start..start + zeros].fill(0);
}

/// The bytes of a table up to anywhere, most often inside an entry.
pub fn cut_off(table: &mut Vec<u8>, random: &mut Random) {
    let last = table.len() as u64 / 16 - 1;
    let whole = 16 * random.between(0, last) as usize;
    table.truncate(whole + random.one_of(&[0, 1, 8, 9, 12, 14, 15, 15, 15, 15]));
}

/// The nodes again and again, more of them than a setup leaves, and no id 0; of some the bytes are others.
pub fn long(nodes: &[Node], string: usize, place: usize, random: &mut Random) -> Vec<u8> {
    let any = random.between(4_000, 12_000) as usize;
    let count = [4_095, 4_096, 4_097, 4_098, 8_192, any][place % 6];
    let again = nodes.iter().copied().cycle().take(count);
    let mut again: Vec<Node> = again.collect();
    for _ in 0..count / 4 {
        let k = random.between(0, count as u64 - 1) as usize;
        again[k].start = random.between(0, string as u64) as usize;
        again[k].length = random.by_size(0, 64) as usize;
        again[k].parent = random.between(0, 4_095) as usize;
    }
    let part = random.one_of(&[0, 0, 1, 8, 15]);
    let mut table = table(&again);
    table.extend(random.bytes(part));
    table
}
