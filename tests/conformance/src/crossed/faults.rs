//! The comparison tested: one function that is right, and many that are wrong in one place each.
//! Every wrong one must be found, and the right one must pass all cases. It compares ends, where the reference
//! looks at every byte.

use super::cases::count;
use super::compare::Crossed;
use super::report::run;
use crate::lent::{part, part_mut};
use reference::fnv::block_id;

const NONE: u8 = 0;
const SUM_WRAPPED: u8 = 1;
const RANGE_CUT_TO_THE_STRING: u8 = 2;
const LOW_32_BITS: u8 = 3;
const END_OF_THE_STRING_REFUSED: u8 = 4;
const START_AT_THE_END_REFUSED: u8 = 5;
const EMPTY_RANGE_NOT_ASKED: u8 = 6;
const ROOM_BEFORE_RANGE: u8 = 7;
const LONG_STRING_REFUSED: u8 = 8;
const SHORT_NODES_REFUSED: u8 = 9;
const NO_NODES_REFUSED: u8 = 10;
const REFUSED_BY_20: u8 = 11;
const EXACT_ROOM_REFUSED: u8 = 12;
const EMPTY_ANSWER_NEEDS_ROOM: u8 = 13;
const LAST_ENTRY_IN_PART: u8 = 14;
const WRITTEN_AT_22: u8 = 15;
const CLEARED_WHEN_REFUSED: u8 = 16;
const REST_CLEARED: u8 = 17;
const REST_OF_THE_ENTRY_CLEARED: u8 = 18;
const NODE_ENDS_AT_THE_START: u8 = 19;
const NODE_STARTS_AT_THE_END: u8 = 20;
const FIRST_BYTE_LEFT_OUT: u8 = 21;
const LAST_BYTE_LEFT_OUT: u8 = 22;
const EMPTY_RANGE_CROSSES: u8 = 23;
const EMPTY_NODE_CROSSED: u8 = 24;
const INSIDE_THE_RANGE_ONLY: u8 = 25;
const AROUND_THE_RANGE_ONLY: u8 = 26;
const STOPS_BEHIND_THE_RANGE: u8 = 27;
const PASSES_BY_WHAT_IS_BELOW: u8 = 28;
const BELOW_CROSSED_PARENTS_ONLY: u8 = 29;
const ROOT_PASSED_OVER: u8 = 30;
const LEVELS_ABOVE_4_PASSED_OVER: u8 = 31;
const LATE_PARENTS_PASSED_OVER: u8 = 32;
const OTHER_BITS_PASSED_OVER: u8 = 33;
const OUTSIDE_ANSWERED: u8 = 34;
const OUTSIDE_CUT_OFF: u8 = 35;
const OUTSIDE_ENDS_THE_TABLE: u8 = 36;
const OUTSIDE_NOT_COUNTED: u8 = 37;
const END_OF_THE_STRING_OUTSIDE: u8 = 38;
const PARTIAL_ENTRY_READ: u8 = 39;
const LAST_ENTRY_NOT_READ: u8 = 40;
const ID_0_PASSED_OVER: u8 = 41;
const ID_0_READ: u8 = 42;
const ID_LOW_32_BITS: u8 = 43;
const ENTRIES_TO_4096: u8 = 44;
const PARENT_IS_THE_NODE: u8 = 45;
const PARENT_WITH_PLACE: u8 = 46;
const PARENT_11_BITS: u8 = 47;
const PARENT_BY_LEVELS: u8 = 48;
const PARENT_IN_THE_ANSWER: u8 = 49;
const PARENT_FIRST: u8 = 50;
const NODE_12_BITS: u8 = 51;
const NODE_FROM_1: u8 = 52;
const LOW_BYTE_FIRST: u8 = 53;
const LEVEL_BY_LEVEL: u8 = 54;
const START_16_BITS: u8 = 55;
const LENGTH_16_BITS: u8 = 56;
const COUNTS_BYTES: u8 = 57;
const COUNT_ALONE: u8 = 58;
const STRING_CHANGED: u8 = 59;
const NODES_CHANGED: u8 = 60;
const PAST_THE_TABLE: u8 = 61;
const BEFORE_THE_TABLE: u8 = 62;
const OTHER_IDS_PASSED_OVER: u8 = 63;

/// A node, as its entry gives it.
#[derive(Clone, Copy)]
struct Entry {
    /// The place in the table.
    k: u64,
    id: u64,
    level: u64,
    start: u64,
    end: u64,
    parent: u64,
    /// The bits that no reader looks at.
    other: u64,
}

fn entry(fault: u8, k: usize, bytes: &[u8]) -> Entry {
    let row = |from: usize| {
        let bytes = bytes[from..from + 8].try_into();
        u64::from_be_bytes(bytes.expect("a row has 8 bytes"))
    };
    let second = row(8);
    let start = match fault {
        START_16_BITS => second >> 20 & 0xffff,
        _ => second >> 20 & 0x1ffff,
    };
    let length = match fault {
        LENGTH_16_BITS => second >> 3 & 0xffff,
        _ => second >> 3 & 0x1ffff,
    };
    Entry {
        k: k as u64,
        id: match fault {
            ID_LOW_32_BITS => row(0) & 0xffff_ffff,
            _ => row(0),
        },
        level: second & 7,
        start,
        end: start + length,
        parent: match fault {
            PARENT_WITH_PLACE => second >> 37 & 0x1ffff,
            PARENT_11_BITS => second >> 37 & 0x7ff,
            _ => second >> 37 & 0xfff,
        },
        other: second >> 54,
    }
}

/// The entries that are read.
fn entries(fault: u8, table: &[u8]) -> Vec<Entry> {
    let mut bytes = table.to_vec();
    match fault {
        PARTIAL_ENTRY_READ => bytes.resize(table.len().next_multiple_of(16), 0),
        LAST_ENTRY_NOT_READ => bytes.truncate(table.len().saturating_sub(16)),
        ENTRIES_TO_4096 => bytes.truncate(65_536),
        _ => {}
    }
    let chunks = bytes.chunks_exact(16).enumerate();
    let all = chunks.map(|(k, bytes)| entry(fault, k, bytes));
    match fault {
        ID_0_READ => all.collect(),
        ID_0_PASSED_OVER => all.filter(|entry| entry.id != 0).collect(),
        _ => all.take_while(|entry| entry.id != 0).collect(),
    }
}

/// What a function makes of entries that end past the string's end, or are of another string.
fn inside(fault: u8, bytes: &[u8], mut entries: Vec<Entry>) -> Vec<Entry> {
    let string = bytes.len() as u64;
    let holds = |entry: &Entry| match fault {
        END_OF_THE_STRING_OUTSIDE => entry.end < string,
        _ => entry.end <= string,
    };
    match fault {
        OUTSIDE_ANSWERED => return entries,
        OUTSIDE_CUT_OFF => {
            for entry in &mut entries {
                entry.end = entry.end.min(string);
            }
        }
        OUTSIDE_ENDS_THE_TABLE => return entries.into_iter().take_while(holds).collect(),
        _ => {}
    }
    entries.retain(holds);
    if fault == OTHER_IDS_PASSED_OVER {
        let own = |entry: &Entry| block_id(&bytes[entry.start as usize..entry.end as usize]);
        entries.retain(|entry| own(entry) == entry.id);
    }
    if fault == OUTSIDE_NOT_COUNTED {
        for (k, entry) in entries.iter_mut().enumerate() {
            entry.k = k as u64;
        }
    }
    entries
}

/// Whether an entry shares a byte with the range from `start` up to `end`.
fn shares(fault: u8, entry: &Entry, start: u64, end: u64) -> bool {
    let passed_over = match fault {
        ROOT_PASSED_OVER => entry.k == 0,
        LEVELS_ABOVE_4_PASSED_OVER => entry.level > 4,
        LATE_PARENTS_PASSED_OVER => entry.k > 0 && entry.parent >= entry.k,
        OTHER_BITS_PASSED_OVER => entry.other != 0,
        _ => false,
    };
    let (start, end) = match fault {
        FIRST_BYTE_LEFT_OUT => ((start + 1).min(end), end),
        LAST_BYTE_LEFT_OUT => (start, end.saturating_sub(1).max(start)),
        _ => (start, end),
    };
    let empty_node = entry.start >= entry.end && fault != EMPTY_NODE_CROSSED;
    let empty_range = start >= end && fault != EMPTY_RANGE_CROSSES;
    if passed_over || empty_node || empty_range {
        return false;
    }
    match fault {
        NODE_ENDS_AT_THE_START => entry.start < end && start <= entry.end,
        NODE_STARTS_AT_THE_END => entry.start <= end && start < entry.end,
        INSIDE_THE_RANGE_ONLY => start <= entry.start && entry.end <= end,
        AROUND_THE_RANGE_ONLY => entry.start <= start && end <= entry.end,
        _ => entry.start < end && start < entry.end,
    }
}

/// The entries that are crossed, where a function trusts in the order or the parents of a tree.
fn crossed(fault: u8, entries: &[Entry], start: u64, end: u64) -> Vec<Entry> {
    let mut crossed: Vec<Entry> = Vec::new();
    let mut level_passed_by = u64::MAX;
    for entry in entries {
        if fault == STOPS_BEHIND_THE_RANGE && entry.start >= end {
            break;
        }
        if fault == PASSES_BY_WHAT_IS_BELOW && entry.level > level_passed_by {
            continue;
        }
        let by_parent = fault == BELOW_CROSSED_PARENTS_ONLY && entry.k > 0;
        let shares = shares(fault, entry, start, end);
        if shares && (!by_parent || crossed.iter().any(|other| other.k == entry.parent)) {
            crossed.push(*entry);
        }
        level_passed_by = if shares { u64::MAX } else { entry.level };
    }
    if fault == LEVEL_BY_LEVEL {
        crossed.sort_by_key(|entry| entry.level);
    }
    crossed
}

/// The rows of an entry of the answer.
fn rows(fault: u8, read: &[Entry], crossed: &[Entry], entry: &Entry) -> [u64; 2] {
    let node = match fault {
        NODE_12_BITS => entry.k & 0xfff,
        NODE_FROM_1 => entry.k + 1,
        _ => entry.k,
    };
    let parent = match fault {
        PARENT_IS_THE_NODE => entry.k,
        PARENT_BY_LEVELS => {
            let above = |other: &&Entry| other.k < entry.k && other.level < entry.level;
            read.iter().rev().find(above).map_or(0, |other| other.k)
        }
        PARENT_IN_THE_ANSWER => {
            let place = crossed.iter().position(|other| other.k == entry.parent);
            place.unwrap_or(0) as u64
        }
        _ => entry.parent,
    };
    match fault {
        PARENT_FIRST => [parent, node],
        _ => [node, parent],
    }
}

/// The bytes of the answer.
fn answer_bytes(fault: u8, read: &[Entry], crossed: &[Entry]) -> Vec<u8> {
    let rows = crossed
        .iter()
        .flat_map(|entry| rows(fault, read, crossed, entry));
    let row = |row: u64| match fault {
        LOW_BYTE_FIRST => row.to_le_bytes(),
        _ => row.to_be_bytes(),
    };
    rows.flat_map(row).collect()
}

/// The first thing that is asked: whether the range, or what is lent, is refused.
fn refused(fault: u8, string: u64, nodes: &[u8], start: u64, length: u64) -> Option<u64> {
    let sum = match fault {
        SUM_WRAPPED => u128::from(start.wrapping_add(length)),
        _ => u128::from(start) + u128::from(length),
    };
    let past_the_end = match fault {
        RANGE_CUT_TO_THE_STRING => false,
        END_OF_THE_STRING_REFUSED => sum >= u128::from(string),
        START_AT_THE_END_REFUSED => start >= string || sum > u128::from(string),
        EMPTY_RANGE_NOT_ASKED => length > 0 && sum > u128::from(string),
        _ => sum > u128::from(string),
    };
    match fault {
        LONG_STRING_REFUSED if string > 65_536 => Some(6),
        SHORT_NODES_REFUSED if nodes.len() < 65_536 => Some(7),
        NO_NODES_REFUSED if nodes.len() < 16 => Some(7),
        _ => past_the_end.then_some(21),
    }
}

/// Whether the answer fits the table.
fn fits(fault: u8, answer: &[u8], table: &[u8]) -> bool {
    match fault {
        EXACT_ROOM_REFUSED => answer.is_empty() || answer.len() < table.len(),
        EMPTY_ANSWER_NEEDS_ROOM => answer.len().max(16) <= table.len(),
        LAST_ENTRY_IN_PART => answer.len() <= table.len().next_multiple_of(16),
        _ => answer.len() <= table.len(),
    }
}

/// `rcds_crossed` with one fault.
fn answer(fault: u8, bytes: &[u8], nodes: &[u8], range: [u64; 2], table: &mut [u8]) -> u64 {
    let string = bytes.len() as u64;
    let [start, length] = match fault {
        LOW_32_BITS => range.map(|number| number & 0xffff_ffff),
        _ => range,
    };
    let refused = refused(fault, string, nodes, start, length);
    if refused.is_some() && fault != ROOM_BEFORE_RANGE {
        return refuse(fault, 21, refused, table);
    }
    let (first, end) = (start.min(string), start.saturating_add(length).min(string));
    let read = inside(fault, bytes, entries(fault, nodes));
    let crossed = crossed(fault, &read, first, end.max(first));
    let answer = answer_bytes(fault, &read, &crossed);
    if !fits(fault, &answer, table) {
        if fault == WRITTEN_AT_22 {
            let whole = table.len() / 16 * 16;
            table[..whole].copy_from_slice(&answer[..whole]);
        }
        return refuse(fault, 22, None, table);
    }
    if refused.is_some() {
        return refuse(fault, 21, refused, table);
    }
    write(fault, &answer, table);
    match fault {
        COUNTS_BYTES => (1 << 32) + answer.len() as u64,
        COUNT_ALONE => crossed.len() as u64,
        _ => (1 << 32) + crossed.len() as u64,
    }
}

/// What a refused call leaves and answers.
fn refuse(fault: u8, question: u64, other: Option<u64>, table: &mut [u8]) -> u64 {
    if fault == CLEARED_WHEN_REFUSED {
        table.fill(0);
    }
    match fault {
        REFUSED_BY_20 if question == 22 => 20,
        _ => other.unwrap_or(question),
    }
}

fn write(fault: u8, answer: &[u8], table: &mut [u8]) {
    let cleared = match fault {
        REST_CLEARED => table.len(),
        REST_OF_THE_ENTRY_CLEARED => table.len().min(answer.len() + 16),
        _ => 0,
    };
    table[..cleared].fill(0);
    let written = answer.len().min(table.len());
    table[..written].copy_from_slice(&answer[..written]);
}

/// The function with one fault, as C would call it.
unsafe extern "C" fn faulty<const FAULT: u8>(
    string: *const u8,
    string_len: usize,
    nodes: *const u8,
    nodes_len: usize,
    start: u64,
    length: u64,
    crossed: *mut u8,
    crossed_len: usize,
) -> u64 {
    let table = part_mut(crossed, crossed_len);
    let (bytes, lent) = (part(string, string_len), part(nodes, nodes_len));
    let given = answer(FAULT, bytes, lent, [start, length], table);
    // The guard bytes and all pieces come from vectors, so these writes stay in their memory.
    match FAULT {
        STRING_CHANGED if string_len > 0 => *string.cast_mut() ^= 1,
        NODES_CHANGED if nodes_len > 0 => *nodes.cast_mut().add(nodes_len - 1) ^= 1,
        PAST_THE_TABLE if crossed_len > 0 => *crossed.add(crossed_len) ^= 1,
        BEFORE_THE_TABLE if crossed_len > 0 => *crossed.sub(1) ^= 1,
        _ => {}
    }
    given
}

macro_rules! functions {
    ($($fault:ident)*) => { [$((stringify!($fault), faulty::<$fault> as Crossed)),*] };
}

const SEED: u64 = 1;

#[test]
fn the_right_function_passes() {
    match run(SEED, count(), faulty::<NONE>) {
        Ok(report) => report.assert_complete(),
        Err(failure) => panic!("{failure}"),
    }
}

#[test]
fn every_fault_is_found() {
    let functions = functions! {
        SUM_WRAPPED RANGE_CUT_TO_THE_STRING LOW_32_BITS END_OF_THE_STRING_REFUSED
        START_AT_THE_END_REFUSED EMPTY_RANGE_NOT_ASKED ROOM_BEFORE_RANGE LONG_STRING_REFUSED
        SHORT_NODES_REFUSED NO_NODES_REFUSED REFUSED_BY_20 EXACT_ROOM_REFUSED EMPTY_ANSWER_NEEDS_ROOM
        LAST_ENTRY_IN_PART WRITTEN_AT_22 CLEARED_WHEN_REFUSED REST_CLEARED REST_OF_THE_ENTRY_CLEARED
        NODE_ENDS_AT_THE_START NODE_STARTS_AT_THE_END FIRST_BYTE_LEFT_OUT LAST_BYTE_LEFT_OUT
        EMPTY_RANGE_CROSSES EMPTY_NODE_CROSSED INSIDE_THE_RANGE_ONLY AROUND_THE_RANGE_ONLY
        STOPS_BEHIND_THE_RANGE PASSES_BY_WHAT_IS_BELOW BELOW_CROSSED_PARENTS_ONLY ROOT_PASSED_OVER
        LEVELS_ABOVE_4_PASSED_OVER LATE_PARENTS_PASSED_OVER OTHER_BITS_PASSED_OVER OUTSIDE_ANSWERED
        OUTSIDE_CUT_OFF OUTSIDE_ENDS_THE_TABLE OUTSIDE_NOT_COUNTED END_OF_THE_STRING_OUTSIDE
        PARTIAL_ENTRY_READ LAST_ENTRY_NOT_READ ID_0_PASSED_OVER ID_0_READ ID_LOW_32_BITS
        ENTRIES_TO_4096 PARENT_IS_THE_NODE PARENT_WITH_PLACE PARENT_11_BITS PARENT_BY_LEVELS
        PARENT_IN_THE_ANSWER PARENT_FIRST NODE_12_BITS NODE_FROM_1 LOW_BYTE_FIRST LEVEL_BY_LEVEL
        START_16_BITS LENGTH_16_BITS COUNTS_BYTES COUNT_ALONE STRING_CHANGED NODES_CHANGED
        PAST_THE_TABLE BEFORE_THE_TABLE OTHER_IDS_PASSED_OVER
    };
    let mut passed = Vec::new();
    for (name, function) in functions {
        match run(SEED, count(), function) {
            Ok(_) => passed.push(name),
            Err(failure) => println!("{name}: {failure}"),
        }
    }
    assert!(passed.is_empty(), "passed: {passed:?}");
}
