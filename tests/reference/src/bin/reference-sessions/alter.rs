//! Altered memory and altered states.

use reference::lent::Lent;
use reference::random::Random;
use reference::receiver::{Pending, Receiver, Stage};
use reference::settings::Settings;
use reference::{cell_table, node_table, shingle_table};

/// Changes the string, one of the tables or the output. `other` is another end's memory.
pub fn memory(lent: &mut Lent, output: &mut Vec<u8>, other: &Lent, random: &mut Random) {
    let nodes = lent.node_list().len();
    let shingles = lent.shingle_list().len();
    match random.between(0, 9) {
        0 | 1 => string(&mut lent.string, random),
        2 | 3 => {
            let entry = node_table::ENTRY_BYTES;
            table(&mut lent.nodes, entry, nodes, &other.nodes, random);
        }
        4 | 5 => {
            let entry = shingle_table::ENTRY_BYTES;
            table(&mut lent.shingles, entry, shingles, &other.shingles, random);
        }
        6 => {
            let entry = cell_table::CELL_BYTES;
            let cells = lent.cells.len() / entry;
            table(&mut lent.cells, entry, cells, &other.cells, random);
        }
        _ => string(output, random),
    }
}

/// A byte changed, all changed, some fewer or more, none, or more than are allowed.
fn string(string: &mut Vec<u8>, random: &mut Random) {
    match random.between(0, 7) {
        0..=2 if !string.is_empty() => {
            let place = random.place(string.len());
            string[place] ^= 1 << random.between(0, 7);
        }
        3 => *string = random.bytes(string.len()),
        4 => string.truncate(string.len().saturating_sub(random.by_size(1, 60) as usize)),
        5 => string.extend(random.bytes(9)),
        6 => string.clear(),
        _ => string.resize(65_537, 0),
    }
}

/// An entry's bytes changed, an entry in another's place, an entry zero, a word of an entry small, one
/// more entry, the other's table, or a table that is too short.
fn table(table: &mut Vec<u8>, entry: usize, used: usize, other: &[u8], random: &mut Random) {
    let all = table.len() / entry;
    if all == 0 {
        return;
    }
    let near = |random: &mut Random| entry * random.place((used + 1).min(all));
    let start = near(random);
    match random.between(0, 7) {
        0 => (0..random.between(1, 3)).for_each(|_| {
            let place = start + random.place(entry);
            table[place] ^= 1 << random.between(0, 7);
        }),
        1 => {
            let from = near(random);
            table.copy_within(from..from + entry, start);
        }
        2 => table[start..start + entry].fill(0),
        3 => {
            let row = start + 8 * random.place(entry / 8);
            let value = random.by_size(0, 1 << 20);
            table[row..row + 8].copy_from_slice(&value.to_be_bytes());
        }
        4 => {
            let bytes = random.bytes(entry);
            table[start..start + entry].copy_from_slice(&bytes);
        }
        5 | 6 => *table = other.to_vec(),
        _ => table.truncate(random.by_size(0, table.len() as u64 - 1) as usize),
    }
}

/// Any number, the ends of ranges among them.
fn any(random: &mut Random) -> u64 {
    let size = random.by_size(0, u64::MAX);
    random.one_of(&[0, 1, 4_095, 4_096, 65_536, 65_537, u64::MAX, size])
}

/// Writes another number into one of the settings.
pub fn settings(settings: &mut Settings, width: &mut u64, random: &mut Random) {
    let size = random.by_size(0, u64::MAX);
    match random.between(0, 5) {
        0 => settings.window = size,
        1 => settings.fan_out = size,
        2 => settings.levels = random.one_of(&[size, 1, 2, 3, 4]),
        3 => settings.nominal = size,
        4 => *width = random.between(0, 70),
        _ => *width = size,
    }
}

/// Writes something else into the state.
pub fn state(state: &mut Receiver, random: &mut Random) {
    let stages = [Stage::BeforeOpening, Stage::AfterOpening, Stage::Ended];
    match random.between(0, 11) {
        0 => state.stage = random.one_of(&stages),
        1 => state.length = any(random),
        2 => state.root = any(random),
        3 => state.built = any(random),
        4 => state.replies = any(random),
        5 => state.session = any(random),
        6 | 7 => settings(&mut state.settings, &mut state.width, random),
        8 => state.pile.clear(),
        _ => {
            let top = state.pile.last().copied();
            for _ in 0..random.one_of(&[1, 2, 126, 127, 128, 129, 200]) {
                let any = Pending {
                    level: random.between(0, 4),
                    id: random.by_size(0, u64::MAX),
                };
                state.pile.push(top.unwrap_or(any));
            }
        }
    }
}
