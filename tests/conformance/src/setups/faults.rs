//! The comparison tested: one function that is right, and many that are wrong in one place each.
//! Every wrong one must be found, and the right one must pass an eighth of the cases. Trees are the
//! reference's: the faults of cutting are tested with `rcds_tree`.

use super::cases::count;
use super::compare::SenderSetup;
use super::report::run;
use crate::lent::{part, part_mut};
use reference::fnv::fnv1a;
use reference::node_table;
use reference::settings::Settings;
use reference::tree::{tree, Node};
use std::collections::BTreeMap;

const NONE: u8 = 0;
const SIBLING_UNDER_ANOTHER_PARENT: u8 = 1;
const FIRST_CHILD_AFTER_ITS_PARENT: u8 = 2;
const ROOT_LEFT_OUT: u8 = 3;
const LAST_LEVEL_LEFT_OUT: u8 = 4;
const COUNT_ALWAYS_1: u8 = 5;
const COUNT_8_BITS: u8 = 6;
const COUNT_OVER_ALL_LEVELS: u8 = 7;
const COUNT_OF_THE_OWN_ID: u8 = 8;
const LEVEL_SORTED_LAST: u8 = 9;
const OWN_SORTED_FIRST: u8 = 10;
const SORTED_SIGNED: u8 = 11;
const SORTED_FALLING: u8 = 12;
const COUNT_BEFORE_LEVEL: u8 = 13;
const ENTRY_LOW_BYTE_FIRST: u8 = 14;
const ENTRY_OWN_FIRST: u8 = 15;
const HASH_TAIL_8_BYTES: u8 = 16;
const HASH_LOW_BYTE_FIRST: u8 = 17;
const HASH_J_LAST: u8 = 18;
const HASH_J_FROM_1: u8 = 19;
const CHECK_IS_F_0: u8 = 20;
const CHECK_WITHOUT_J: u8 = 21;
const CELL_MODULO_3Q: u8 = 22;
const CELLS_INTERLEAVED: u8 = 23;
const SAME_F_FOR_ALL: u8 = 24;
const TWO_CELLS_ONLY: u8 = 25;
const NUMBER_ADDS_COUNTS: u8 = 26;
const SUMS_STOP_AT_THE_LARGEST: u8 = 27;
const SUMS_XOR: u8 = 28;
const CELL_SUMS_REORDERED: u8 = 29;
const NODES_NOT_CLEARED: u8 = 30;
const SHINGLES_NOT_CLEARED: u8 = 31;
const CELLS_NOT_CLEARED: u8 = 32;
const WHOLE_ENTRIES_CLEARED: u8 = 33;
const NODES_LEFT_AT_8: u8 = 34;
const SHINGLES_LEFT_AT_8: u8 = 35;
const CELLS_LEFT_AT_8: u8 = 36;
const STATE_ZEROED_AT_8: u8 = 37;
const STATE_MADE_AT_8: u8 = 38;
const STATE_MADE_AT_7: u8 = 39;
const STATE_CLEARED: u8 = 40;
const STATE_WITHOUT_WIDTH: u8 = 41;
const STATE_LOW_BYTE_FIRST: u8 = 42;
const WIDTH_65: u8 = 43;
const WIDTH_0: u8 = 44;
const WIDTH_64_REFUSED: u8 = 45;
const WIDTH_LOW_32_BITS: u8 = 46;
const WIDTH_AFTER_STRING: u8 = 47;
const WIDTH_BEFORE_NOMINAL: u8 = 48;
const NODES_ONE_SHORTER: u8 = 49;
const SHINGLES_ONE_SHORTER: u8 = 50;
const CELLS_ONE_SHORTER: u8 = 51;
const STATE_ONE_SHORTER: u8 = 52;
const CELLS_FOR_WIDTH_64: u8 = 53;
const SHINGLES_LONGER_THAN_NEEDED: u8 = 54;
const STATE_BEFORE_THE_STRING: u8 = 55;
const TABLES_AFTER_NODES: u8 = 56;
const NODES_ZEROED_AT_7: u8 = 57;
const STRING_CHANGED: u8 = 58;
const PAST_THE_NODES: u8 = 59;
const BEFORE_THE_SHINGLES: u8 = 60;
const PAST_THE_CELLS: u8 = 61;
const PAST_THE_STATE: u8 = 62;
const COUNTS_NODES_FROM_0: u8 = 63;

/// Level, previous id, own id, count.
type Entry = (u64, u64, u64, u64);

/// The pairs of the nodes, each with its level: of a node the last one before it that is of its level
/// or above, which is its left sibling or its parent.
fn pairs(fault: u8, nodes: &[Node]) -> Vec<(u64, u64, u64)> {
    let pair = |k: usize| {
        let node = &nodes[k];
        let any_of_level = |other: &&Node| other.level == node.level;
        let not_deeper = |other: &&Node| other.level <= node.level;
        let before = match fault {
            SIBLING_UNDER_ANOTHER_PARENT => nodes[..k].iter().rev().find(any_of_level),
            _ => nodes[..k].iter().rev().find(not_deeper),
        };
        let sibling =
            |other: &&Node| other.level == node.level || fault == FIRST_CHILD_AFTER_ITS_PARENT;
        let previous = before.filter(sibling).map_or(0, |other| other.id);
        (node.level, previous, node.id)
    };
    (0..nodes.len()).map(pair).collect()
}

fn list(fault: u8, levels: u64, nodes: &[Node]) -> Vec<Entry> {
    let all = pairs(fault, nodes);
    let mut counts: BTreeMap<(u64, u64, u64), u64> = BTreeMap::new();
    let left_out = |level: u64| {
        fault == ROOT_LEFT_OUT && level == 0 || fault == LAST_LEVEL_LEFT_OUT && level == levels
    };
    for &(level, previous, own) in all.iter().filter(|(level, ..)| !left_out(*level)) {
        *counts.entry((level, previous, own)).or_default() += 1;
    }
    let count = |&(level, previous, own): &(u64, u64, u64), count: u64| match fault {
        COUNT_ALWAYS_1 => 1,
        COUNT_8_BITS => count % 256,
        COUNT_OVER_ALL_LEVELS => all
            .iter()
            .filter(|pair| (pair.1, pair.2) == (previous, own))
            .count() as u64,
        COUNT_OF_THE_OWN_ID => all
            .iter()
            .filter(|pair| (pair.0, pair.2) == (level, own))
            .count() as u64,
        _ => count,
    };
    let entry =
        |(pair, &of_pair): (&(u64, u64, u64), &u64)| (pair.0, pair.1, pair.2, count(pair, of_pair));
    let mut list: Vec<Entry> = counts.iter().map(entry).collect();
    match fault {
        LEVEL_SORTED_LAST => list.sort_by_key(|entry| (entry.1, entry.2, entry.0)),
        OWN_SORTED_FIRST => list.sort_by_key(|entry| (entry.0, entry.2, entry.1)),
        SORTED_SIGNED => list.sort_by_key(|entry| (entry.0, entry.1 as i64, entry.2 as i64)),
        SORTED_FALLING => list.reverse(),
        _ => {}
    }
    list
}

fn tail(fault: u8, entry: &Entry) -> u64 {
    match fault {
        COUNT_BEFORE_LEVEL => entry.3 * 65_536 + entry.0,
        _ => entry.0 * 65_536 + entry.3,
    }
}

fn hash(fault: u8, j: u8, entry: &Entry) -> u64 {
    let tail = tail(fault, entry);
    let j = j + u8::from(fault == HASH_J_FROM_1);
    let mut bytes = vec![j];
    match fault {
        HASH_LOW_BYTE_FIRST => {
            bytes.extend(entry.1.to_le_bytes());
            bytes.extend(entry.2.to_le_bytes());
            bytes.extend((tail as u32).to_le_bytes());
        }
        _ => {
            bytes.extend(entry.1.to_be_bytes());
            bytes.extend(entry.2.to_be_bytes());
            match fault {
                HASH_TAIL_8_BYTES => bytes.extend(tail.to_be_bytes()),
                _ => bytes.extend((tail as u32).to_be_bytes()),
            }
        }
    }
    if fault == HASH_J_LAST {
        bytes.rotate_left(1);
    }
    fnv1a(&bytes)
}

fn sketch(fault: u8, width: u64, list: &[Entry]) -> Vec<[u64; 5]> {
    let mut cells = vec![[0u64; 5]; 3 * width as usize];
    if width == 0 {
        return cells;
    }
    for entry in list {
        let check = match fault {
            CHECK_IS_F_0 => hash(fault, 0, entry),
            CHECK_WITHOUT_J => {
                let mut bytes = entry.1.to_be_bytes().to_vec();
                bytes.extend(entry.2.to_be_bytes());
                bytes.extend((tail(fault, entry) as u32).to_be_bytes());
                fnv1a(&bytes)
            }
            _ => hash(fault, 3, entry),
        };
        let number = match fault {
            NUMBER_ADDS_COUNTS => entry.3,
            _ => 1,
        };
        let mut parts = [number, entry.1, entry.2, tail(fault, entry), check];
        if fault == CELL_SUMS_REORDERED {
            parts.swap(3, 4);
        }
        for j in 0..if fault == TWO_CELLS_ONLY { 2 } else { 3 } {
            let f = match fault {
                SAME_F_FOR_ALL => hash(fault, 0, entry),
                _ => hash(fault, j, entry),
            };
            let place = match fault {
                CELL_MODULO_3Q => f % (3 * width),
                CELLS_INTERLEAVED => 3 * (f % width) + u64::from(j),
                _ => u64::from(j) * width + f % width,
            };
            for (sum, part) in cells[place as usize].iter_mut().zip(parts) {
                *sum = match fault {
                    SUMS_STOP_AT_THE_LARGEST => sum.saturating_add(part),
                    SUMS_XOR => *sum ^ part,
                    _ => sum.wrapping_add(part),
                };
            }
        }
    }
    cells
}

/// The first question of the settings and the string that has a no.
fn refused(fault: u8, settings: &Settings, width: u64, string: &[u8]) -> Option<u64> {
    let (least, most) = match fault {
        WIDTH_0 => (0, 64),
        WIDTH_65 => (1, 65),
        WIDTH_64_REFUSED => (1, 63),
        _ => (1, 64),
    };
    let width_wrong = !(least..=most).contains(&width);
    if !(2..=12).contains(&settings.window) {
        return Some(1);
    }
    if !(2..=8).contains(&settings.fan_out) {
        return Some(2);
    }
    if !(1..=4).contains(&settings.levels) {
        return Some(3);
    }
    if fault == WIDTH_BEFORE_NOMINAL && width_wrong {
        return Some(5);
    }
    let power = settings.fan_out.pow(settings.levels as u32);
    if !(power..=65_536).contains(&settings.nominal) {
        return Some(4);
    }
    if fault == WIDTH_AFTER_STRING && string.len() > 65_536 {
        return Some(6);
    }
    if width_wrong {
        return Some(5);
    }
    (string.len() > 65_536).then_some(6)
}

/// What is lent for writing.
struct Tables<'a> {
    nodes: &'a mut [u8],
    shingles: &'a mut [u8],
    cells: &'a mut [u8],
    state: &'a mut [u8],
}

impl Tables<'_> {
    /// Whether question 7 has a yes.
    fn allowed(&self, fault: u8, width: u64) -> bool {
        let less = |when: u8| usize::from(fault == when);
        let cells = match fault {
            CELLS_FOR_WIDTH_64 => 7_680,
            _ => 120 * width as usize,
        };
        self.nodes.len() >= 65_536 - less(NODES_ONE_SHORTER)
            && self.shingles.len() + less(SHINGLES_ONE_SHORTER)
                >= 98_304 + less(SHINGLES_LONGER_THAN_NEEDED)
            && self.cells.len() >= cells - less(CELLS_ONE_SHORTER)
            && self.state.len() >= 40 - less(STATE_ONE_SHORTER)
    }

    fn make_state(&mut self, fault: u8, settings: &Settings, width: u64) {
        let Settings {
            window,
            fan_out,
            levels,
            nominal,
        } = *settings;
        if fault == STATE_CLEARED {
            self.state.fill(0);
        }
        let mut rows = vec![window, fan_out, levels, nominal, width];
        if fault == STATE_WITHOUT_WIDTH {
            rows.pop();
        }
        for (bytes, row) in self.state.chunks_exact_mut(8).zip(rows) {
            bytes.copy_from_slice(&match fault {
                STATE_LOW_BYTE_FIRST => row.to_le_bytes(),
                _ => row.to_be_bytes(),
            });
        }
    }

    fn zero_at_8(&mut self, fault: u8, settings: &Settings, width: u64) {
        if fault != NODES_LEFT_AT_8 {
            self.nodes.fill(0);
        }
        if fault != SHINGLES_LEFT_AT_8 {
            self.shingles.fill(0);
        }
        if fault != CELLS_LEFT_AT_8 {
            self.cells.fill(0);
        }
        match fault {
            STATE_ZEROED_AT_8 => self.state.fill(0),
            STATE_MADE_AT_8 => self.make_state(fault, settings, width),
            _ => {}
        }
    }
}

/// Rows at the front of a table, and zeros after them.
fn write(fault: u8, rows: impl Iterator<Item = u64>, table: &mut [u8], entry: usize) {
    let cleared = match (fault, entry) {
        (SHINGLES_NOT_CLEARED, 24) | (CELLS_NOT_CLEARED, 40) => 0,
        (WHOLE_ENTRIES_CLEARED, _) => table.len() / entry * entry,
        _ => table.len(),
    };
    table[..cleared].fill(0);
    for (bytes, row) in table.chunks_exact_mut(8).zip(rows) {
        bytes.copy_from_slice(&match (fault, entry) {
            (ENTRY_LOW_BYTE_FIRST, 24) => row.to_le_bytes(),
            _ => row.to_be_bytes(),
        });
    }
}

/// `rcds_sender_setup` with one fault.
fn answer(fault: u8, settings: &Settings, width: u64, string: &[u8], mut tables: Tables) -> u64 {
    let width = match fault {
        WIDTH_LOW_32_BITS => width & 0xffff_ffff,
        _ => width,
    };
    if fault == STATE_BEFORE_THE_STRING && tables.state.len() < 40 && string.len() > 65_536 {
        let early = refused(fault, settings, width, &[]);
        return early.unwrap_or(7);
    }
    if let Some(question) = refused(fault, settings, width, string) {
        return question;
    }
    let allowed = tables.allowed(fault, width);
    if !allowed && fault != TABLES_AFTER_NODES {
        match fault {
            NODES_ZEROED_AT_7 => tables.nodes.fill(0),
            STATE_MADE_AT_7 => tables.make_state(fault, settings, width),
            _ => {}
        }
        return 7;
    }
    let nodes = tree(settings, string);
    if nodes.len() > 4_096 {
        tables.zero_at_8(fault, settings, width);
        return 8;
    }
    if !allowed {
        return 7;
    }
    let list = list(fault, settings.levels, &nodes);
    let cells = sketch(fault, width, &list);
    let kept = match fault {
        NODES_NOT_CLEARED => tables.nodes[16 * nodes.len()..].to_vec(),
        _ => vec![0; tables.nodes.len() - 16 * nodes.len()],
    };
    node_table::write(&nodes, tables.nodes);
    tables.nodes[16 * nodes.len()..].copy_from_slice(&kept);
    let rows = |entry: &Entry| match fault {
        ENTRY_OWN_FIRST => [entry.2, entry.1, tail(fault, entry)],
        _ => [entry.1, entry.2, tail(fault, entry)],
    };
    write(fault, list.iter().flat_map(rows), tables.shingles, 24);
    write(fault, cells.into_iter().flatten(), tables.cells, 40);
    tables.make_state(fault, settings, width);
    (1 << 32) + nodes.len() as u64 - u64::from(fault == COUNTS_NODES_FROM_0)
}

/// The function with one fault, as C would call it.
unsafe extern "C" fn faulty<const FAULT: u8>(
    window: u64,
    fan_out: u64,
    levels: u64,
    nominal: u64,
    width: u64,
    string: *const u8,
    string_len: usize,
    nodes: *mut u8,
    nodes_len: usize,
    shingles: *mut u8,
    shingles_len: usize,
    cells: *mut u8,
    cells_len: usize,
    state: *mut u8,
    state_len: usize,
) -> u64 {
    let lent = part(string, string_len);
    let settings = Settings {
        window,
        fan_out,
        levels,
        nominal,
    };
    let tables = Tables {
        nodes: part_mut(nodes, nodes_len),
        shingles: part_mut(shingles, shingles_len),
        cells: part_mut(cells, cells_len),
        state: part_mut(state, state_len),
    };
    let answer = answer(FAULT, &settings, width, lent, tables);
    // The guard bytes and the string come from vectors, so these writes stay in their memory.
    match FAULT {
        STRING_CHANGED if string_len > 0 => *string.cast_mut() ^= 1,
        PAST_THE_NODES if nodes_len > 0 => *nodes.add(nodes_len) ^= 1,
        BEFORE_THE_SHINGLES if shingles_len > 0 => *shingles.sub(1) ^= 1,
        PAST_THE_CELLS if cells_len > 0 => *cells.add(cells_len) ^= 1,
        PAST_THE_STATE if state_len > 0 => *state.add(state_len) ^= 1,
        _ => {}
    }
    answer
}

macro_rules! functions {
    ($($fault:ident)*) => { [$((stringify!($fault), faulty::<$fault> as SenderSetup)),*] };
}

const SEED: u64 = 1;

#[test]
fn the_right_function_passes() {
    match run(SEED, count() / 8, faulty::<NONE>) {
        Ok(report) => report.assert_complete(),
        Err(failure) => panic!("{failure}"),
    }
}

#[test]
fn every_fault_is_found() {
    let functions = functions! {
        SIBLING_UNDER_ANOTHER_PARENT FIRST_CHILD_AFTER_ITS_PARENT ROOT_LEFT_OUT LAST_LEVEL_LEFT_OUT
        COUNT_ALWAYS_1 COUNT_8_BITS COUNT_OVER_ALL_LEVELS COUNT_OF_THE_OWN_ID LEVEL_SORTED_LAST
        OWN_SORTED_FIRST SORTED_SIGNED SORTED_FALLING COUNT_BEFORE_LEVEL ENTRY_LOW_BYTE_FIRST
        ENTRY_OWN_FIRST HASH_TAIL_8_BYTES HASH_LOW_BYTE_FIRST HASH_J_LAST HASH_J_FROM_1 CHECK_IS_F_0
        CHECK_WITHOUT_J CELL_MODULO_3Q CELLS_INTERLEAVED SAME_F_FOR_ALL TWO_CELLS_ONLY
        NUMBER_ADDS_COUNTS SUMS_STOP_AT_THE_LARGEST SUMS_XOR CELL_SUMS_REORDERED NODES_NOT_CLEARED
        SHINGLES_NOT_CLEARED CELLS_NOT_CLEARED WHOLE_ENTRIES_CLEARED NODES_LEFT_AT_8
        SHINGLES_LEFT_AT_8 CELLS_LEFT_AT_8 STATE_ZEROED_AT_8 STATE_MADE_AT_8 STATE_MADE_AT_7
        STATE_CLEARED STATE_WITHOUT_WIDTH STATE_LOW_BYTE_FIRST WIDTH_65 WIDTH_0 WIDTH_64_REFUSED
        WIDTH_LOW_32_BITS WIDTH_AFTER_STRING WIDTH_BEFORE_NOMINAL NODES_ONE_SHORTER
        SHINGLES_ONE_SHORTER CELLS_ONE_SHORTER STATE_ONE_SHORTER CELLS_FOR_WIDTH_64
        SHINGLES_LONGER_THAN_NEEDED STATE_BEFORE_THE_STRING TABLES_AFTER_NODES NODES_ZEROED_AT_7
        STRING_CHANGED PAST_THE_NODES BEFORE_THE_SHINGLES PAST_THE_CELLS PAST_THE_STATE
        COUNTS_NODES_FROM_0
    };
    for (name, function) in functions {
        match run(SEED, count(), function) {
            Ok(_) => panic!("{name} passed"),
            Err(failure) => println!("{name}: {failure}"),
        }
    }
}
