//! Memory and states otherwise than the calls left them.

use crate::random::Random;
use reference::lent::Lent as Memory;
use reference::receiver_state::{HEADER_ROWS, STATE_BYTES};
use reference::{cell_table, node_table, shingle_table};

/// Changes the string, one of the tables or the output. `other` is the other end's memory.
pub fn memory(memory: &mut Memory, output: &mut Vec<u8>, other: &Memory, random: &mut Random) {
    let nodes = memory.node_list().len();
    let shingles = memory.shingle_list().len();
    match random.between(0, 11) {
        0 | 1 => string(&mut memory.string, random),
        2 | 3 => {
            let entry = node_table::ENTRY_BYTES;
            table(&mut memory.nodes, entry, nodes, &other.nodes, random);
        }
        4 | 5 => {
            let entry = shingle_table::ENTRY_BYTES;
            let table_bytes = &mut memory.shingles;
            table(table_bytes, entry, shingles, &other.shingles, random);
        }
        6 => {
            let entry = cell_table::CELL_BYTES;
            let cells = memory.cells.len() / entry;
            table(&mut memory.cells, entry, cells, &other.cells, random);
        }
        // A byte that is built already, perhaps.
        7 | 8 if !output.is_empty() => {
            let place = random.by_size(0, output.len() as u64 - 1) as usize;
            output[place] ^= 1 << random.between(0, 7);
        }
        _ => string(output, random),
    }
}

/// A byte changed, all changed, some fewer or more, none, or more than are allowed.
pub fn string(string: &mut Vec<u8>, random: &mut Random) {
    match random.between(0, 7) {
        0..=2 if !string.is_empty() => {
            let place = random.between(0, string.len() as u64 - 1) as usize;
            string[place] ^= 1 << random.between(0, 7);
        }
        3 => *string = random.bytes(string.len()),
        4 => string.truncate(string.len().saturating_sub(random.by_size(1, 60) as usize)),
        5 => string.extend(random.bytes(9)),
        6 => string.clear(),
        _ => string.resize(65_537, 0),
    }
}

/// An entry's bytes changed, an entry or its first row in another's place, an entry zero, a row of an
/// entry small, an entry of any bytes, the other end's table, or any bytes; the table longer; or a table
/// too short.
fn table(table: &mut Vec<u8>, entry: usize, used: usize, other: &[u8], random: &mut Random) {
    let all = table.len() / entry;
    if all == 0 {
        return;
    }
    let last = used.min(all - 1) as u64;
    let near = |random: &mut Random| entry * random.between(0, last) as usize;
    let start = near(random);
    match random.between(0, 9) {
        0 | 1 => {
            let place = start + random.between(0, entry as u64 - 1) as usize;
            table[place] ^= 1 << random.between(0, 7);
        }
        2 => {
            let from = near(random);
            let length = random.one_of(&[8, entry]);
            table.copy_within(from..from + length, start);
        }
        3 => table[start..start + entry].fill(0),
        4 => {
            let row = start + 8 * random.between(0, entry as u64 / 8 - 1) as usize;
            let value = random.by_size(0, 1 << 20);
            table[row..row + 8].copy_from_slice(&value.to_be_bytes());
        }
        5 => {
            let bytes = random.bytes(entry);
            table[start..start + entry].copy_from_slice(&bytes);
        }
        6 => *table = other.to_vec(),
        7 => {
            let more = random.one_of(&[0, 0, 1, entry, 5 * entry + 3]);
            *table = random.bytes(table.len() + more);
        }
        8 => table.extend(random.bytes(3 * entry)),
        _ => table.truncate(random.by_size(0, table.len() as u64 - 1) as usize),
    }
}

/// Of a sender, what leaves no reply free: another string, other cells, other settings in the state, or
/// a piece that is too short.
pub fn sender(memory: &mut Memory, state: &mut Vec<u8>, random: &mut Random) {
    match random.between(0, 7) {
        0 | 1 => string(&mut memory.string, random),
        2 => {
            let length = memory.cells.len();
            let cells = random.bytes(length);
            memory.cells = cells;
        }
        3 => memory.nodes.truncate(random.by_size(0, 65_535) as usize),
        4 => memory.shingles.truncate(random.by_size(0, 98_303) as usize),
        5 => memory.cells.truncate(random.by_size(0, 119) as usize),
        6 => state.truncate(random.between(0, 39) as usize),
        _ if state.len() >= 40 => settings_row(state, random),
        _ => {}
    }
}

fn row(state: &[u8], k: usize) -> u64 {
    u64::from_be_bytes(state[8 * k..8 * k + 8].try_into().expect("8 bytes"))
}

fn set_row(state: &mut [u8], k: usize, value: u64) {
    state[8 * k..8 * k + 8].copy_from_slice(&value.to_be_bytes());
}

/// One of the five settings another number: a neighbour, or one with the same low bits.
fn settings_row(state: &mut [u8], random: &mut Random) {
    let k = random.between(0, 4) as usize;
    let held = row(state, k);
    let any = random.by_size(0, u64::MAX);
    let near = [
        held.wrapping_add(1),
        held.wrapping_sub(1),
        held.wrapping_add(256),
        held | 1 << 32,
    ];
    let value = match random.between(0, 2) {
        0 => random.one_of(&near),
        1 => random.one_of(&[0, 1, 65, 65_537, u64::MAX, any]),
        _ => random.between(0, 14),
    };
    set_row(state, k, value);
}

const LEVELS: usize = 2;
const SESSION: usize = 5;
const PHASE: usize = 6;
const SIZE: usize = 7;
const ROOT: usize = 8;
const BUILT: usize = 9;
const TAKEN: usize = 10;
const WAITING: usize = 11;

/// Writes something else into a receiver's state; `ids` are those of nodes that the receiver has.
pub fn state(state: &mut Vec<u8>, ids: &[u64], random: &mut Random) {
    if state.len() < STATE_BYTES {
        return;
    }
    let rows = [SIZE, ROOT, BUILT, TAKEN, WAITING];
    let [size, root, built, taken, waiting] = rows.map(|k| row(state, k));
    let any = random.by_size(0, u64::MAX);
    let edge = random.one_of(&[0, 1, 65_535, 65_536, 65_537, 1 << 32, u64::MAX, any]);
    match random.between(0, 16) {
        0 => {
            let phases = [0, 0, 1, 1, 2, 3, 256, 1 << 32, (1 << 32) + 1, u64::MAX];
            set_row(state, PHASE, random.one_of(&phases));
        }
        1 => {
            let sizes = [
                built,
                built.wrapping_add(1),
                built.wrapping_sub(1),
                size.wrapping_add(1),
                edge,
            ];
            set_row(state, SIZE, random.one_of(&sizes));
        }
        2 => set_row(
            state,
            ROOT,
            random.one_of(&[0, 1, any, root ^ 1, root ^ 1 << 32, root ^ 1 << 63]),
        ),
        3 => {
            let near = [
                size,
                size.wrapping_add(1),
                size.wrapping_sub(1),
                built.wrapping_add(1),
                edge,
            ];
            set_row(state, BUILT, random.one_of(&near));
        }
        4 | 5 => {
            let near = [
                taken.wrapping_add(1),
                4_094,
                4_095,
                4_096,
                4_097,
                u64::MAX,
                1 << 32,
            ];
            set_row(state, TAKEN, random.one_of(&near));
        }
        6 => {
            let near = [
                0,
                waiting.wrapping_add(1),
                waiting.wrapping_sub(1),
                127,
                128,
                129,
                waiting.wrapping_add(256),
                waiting.wrapping_add(1 << 32),
                edge,
            ];
            set_row(state, WAITING, random.one_of(&near));
        }
        7 => {
            let held = row(state, SESSION);
            let other = [
                held ^ 1,
                held ^ 1 << 23,
                held | 1 << 24,
                held | 1 << 40,
                any,
            ];
            set_row(state, SESSION, random.one_of(&other));
        }
        8 | 9 => settings_row(state, random),
        10 => place(state, waiting.clamp(1, 128), random),
        11 => place(state, 128, random),
        12 => {
            let length = state.len();
            state.truncate(random.one_of(&[0, 40, 96, STATE_BYTES - 1, length - 1]));
        }
        13 => {
            let k = random.between(0, STATE_BYTES as u64 - 1) as usize;
            state[k] ^= 1 << random.between(0, 7);
        }
        // The last level that of the top, so that the list has a level below it.
        14 if (1..=128).contains(&waiting) => {
            let top = row(state, HEADER_ROWS + 2 * (waiting as usize - 1));
            set_row(state, LEVELS, top.max(1));
        }
        _ => deepen(state, ids, random),
    }
}

/// Another announced length in a receiver's state that is long enough.
pub fn announce(state: &mut [u8], length: u64) {
    if state.len() >= STATE_BYTES {
        set_row(state, SIZE, length);
    }
}

/// Another level or another id in one of the first so many places.
fn place(state: &mut [u8], places: u64, random: &mut Random) {
    let k = HEADER_ROWS + 2 * random.between(0, places - 1) as usize;
    let last = row(state, LEVELS);
    let above = last.wrapping_add(1);
    let levels = [0, 1, last, above, above, above, 5, 7, 1 << 32, u64::MAX];
    match random.percent(60) {
        true => set_row(state, k, random.one_of(&levels)),
        false => {
            let id = random.number();
            set_row(state, k + 1, random.one_of(&[0, 1, id]));
        }
    }
}

/// Puts other nodes under the pending ones, so many that few places are left, or none.
pub fn deepen(state: &mut [u8], ids: &[u64], random: &mut Random) {
    if state.len() < STATE_BYTES || row(state, WAITING) > 127 {
        return;
    }
    let waiting = row(state, WAITING);
    let most = 128 - waiting;
    let more = match random.between(0, 3) {
        0 => most,
        1 => random.between(most.saturating_sub(33), most),
        2 => random.between(0, most.min(3)),
        _ => random.between(0, most),
    };
    let (start, end) = (8 * HEADER_ROWS, 8 * (HEADER_ROWS + 2 * waiting as usize));
    state.copy_within(start..end, start + 16 * more as usize);
    for k in 0..more as usize {
        let any = random.number();
        let own = match ids.is_empty() {
            true => 0,
            false => random.one_of(ids),
        };
        set_row(state, HEADER_ROWS + 2 * k, random.between(0, 1));
        set_row(
            state,
            HEADER_ROWS + 2 * k + 1,
            random.one_of(&[0, any, own]),
        );
    }
    set_row(state, WAITING, waiting + more);
}
