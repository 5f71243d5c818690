//! The comparison tested: one function that is right, and many that are wrong in one place each.
//! Every wrong one must be found, and the right one must pass a quarter of the cases. F and the cells
//! of a shingle are the reference's: their faults are tested with `rcds_sender_setup`.

use super::cases::count;
use super::compare::SketchOpen;
use super::report::run;
use crate::lent::{part, part_mut};
use reference::any_order::hashes_agree;
use reference::shingle::Shingle;
use reference::sketch::{f, places, sketch};

const NONE: u8 = 0;
const POSITIVE_ONLY: u8 = 1;
const NOT_NEGATED: u8 = 2;
const CHECK_NOT_ASKED: u8 = 3;
const CHECK_LOW_32_BITS: u8 = 4;
const PLACE_NOT_ASKED: u8 = 5;
const COUNT_0: u8 = 6;
const COUNT_4097: u8 = 7;
const COUNT_NOT_ASKED: u8 = 8;
const COUNT_4096_REFUSED: u8 = 9;
const LEVEL_ONE_MORE: u8 = 10;
const LEVEL_LAST_REFUSED: u8 = 11;
const LEVEL_0_REFUSED: u8 = 12;
const LEVEL_4_ALWAYS: u8 = 13;
const TAIL_LOW_32_BITS: u8 = 14;
const NUMBER_32_BITS: u8 = 15;
const HIGHEST_FIRST: u8 = 16;
const SCAN_GOES_ON: u8 = 17;
const TAKINGS_2Q: u8 = 18;
const TAKINGS_96: u8 = 19;
const LEFT_NOT_ASKED: u8 = 20;
const NUMBERS_LEFT_ONLY: u8 = 21;
const CHECKS_LEFT_NOT_ASKED: u8 = 22;
const LAST_CELL_NOT_ASKED: u8 = 23;
const TWICE_AND_PAIRS_NOT_ASKED: u8 = 24;
const NEGATIVE_NOT_ASKED: u8 = 25;
const NEGATIVE_BY_PAIR: u8 = 26;
const POSITIVE_BY_PAIR: u8 = 27;
const POSITIVE_REPLACES: u8 = 28;
const MOST_4097: u8 = 29;
const MOST_4095: u8 = 30;
const OWN_MORE_REFUSED: u8 = 31;
const PAIR_TWICE_NOT_ASKED: u8 = 32;
const PAIR_TWICE_BEFORE_SORTING: u8 = 33;
const PAIR_TWICE_OF_NEW_ONLY: u8 = 34;
const PAIR_WITHOUT_LEVEL: u8 = 35;
const NEW_ONES_LAST: u8 = 36;
const OWN_NOT_SORTED: u8 = 37;
const SORTED_SIGNED: u8 = 38;
const LEVEL_SORTED_LAST: u8 = 39;
const NOT_CLEARED: u8 = 40;
const WHOLE_ENTRIES_CLEARED: u8 = 41;
const LIST_ENDS_AT_TAIL_0: u8 = 42;
const LIST_ENDS_AT_ID_0: u8 = 43;
const LIST_GOES_ON: u8 = 44;
const LIST_OF_4096: u8 = 45;
const ONE_OF_EQUAL_ONES_KEPT: u8 = 46;
const GONE_BY_PAIR: u8 = 47;
const OWN_MINUS_THEIRS: u8 = 48;
const OWN_CELLS_OF_THE_LIST: u8 = 49;
const CHANGED_AT_14: u8 = 50;
const WIDTH_65: u8 = 51;
const WIDTH_64_REFUSED: u8 = 52;
const WIDTH_LOW_32_BITS: u8 = 53;
const LEVELS_5: u8 = 54;
const LEVELS_0: u8 = 55;
const LEVELS_LOW_32_BITS: u8 = 56;
const WIDTH_BEFORE_LEVELS: u8 = 57;
const TABLES_BEFORE_WIDTH: u8 = 58;
const THEIRS_ONE_SHORTER: u8 = 59;
const OWN_ONE_SHORTER: u8 = 60;
const SHINGLES_ONE_SHORTER: u8 = 61;
const SHINGLES_LONGER_THAN_NEEDED: u8 = 62;
const THEIRS_CHANGED: u8 = 63;
const OWN_CHANGED: u8 = 64;
const PAST_THE_SHINGLES: u8 = 65;
const BEFORE_THE_SHINGLES: u8 = 66;
const COUNTS_WHAT_WAS_TAKEN: u8 = 67;
const REFUSED_BY_7: u8 = 68;
const LEVEL_16_BITS: u8 = 69;
const ALWAYS_CLOSED: u8 = 70;
const AGREEING_HASHES_NOT_SINGLE: u8 = 71;
const AGREEING_HASHES_REMOVED_ONCE: u8 = 72;
const FIRST_CELL_NOT_SCANNED: u8 = 73;
const LAST_CELL_NOT_SCANNED: u8 = 74;
const ONE_SHINGLE_REFUSED: u8 = 75;
const NEGATIVE_BY_HALVING: u8 = 76;
const NEGATIVE_AMONG_4095: u8 = 77;
const NEGATIVE_FIRST_OF_4096_NOT_OWN: u8 = 78;
const UNSORTED_REFUSED: u8 = 79;
const NO_OWN_REFUSED: u8 = 80;
const NO_NEW_REFUSED: u8 = 81;
const LARGEST_ID_NOT_SINGLE: u8 = 82;

/// Previous id, own id, level, count.
type Entry = [u64; 4];

fn shingle(entry: &Entry) -> Shingle {
    let [previous, own, level, count] = *entry;
    Shingle {
        level,
        previous,
        own,
        count,
    }
}

fn pair(fault: u8, entry: &Entry) -> [u64; 3] {
    match fault {
        PAIR_WITHOUT_LEVEL => [entry[0], entry[1], 0],
        _ => [entry[0], entry[1], entry[2]],
    }
}

fn rows(bytes: &[u8]) -> Vec<u64> {
    let row = |bytes: &[u8]| u64::from_be_bytes(bytes.try_into().expect("a row has 8 bytes"));
    bytes.chunks_exact(8).map(row).collect()
}

/// The cells of a difference, and what has been taken from them.
struct Peeling {
    fault: u8,
    levels: u64,
    width: u64,
    cells: Vec<[u64; 5]>,
    new: Vec<Entry>,
    gone: Vec<Entry>,
}

impl Peeling {
    /// The shingle of a cell and whether it is negative, if the cell is single.
    fn single(&self, i: usize) -> Option<(Entry, bool)> {
        let fault = self.fault;
        let mut cell = self.cells[i];
        let negative = cell[0] == u64::MAX;
        if cell[0] != 1 && !negative || negative && fault == POSITIVE_ONLY {
            return None;
        }
        if negative && fault != NOT_NEGATED {
            cell = cell.map(|sum| sum.wrapping_neg());
        }
        let tail = match fault {
            TAIL_LOW_32_BITS => cell[3] & 0xffff_ffff,
            _ => cell[3],
        };
        let (level, count) = (tail >> 16, tail & 0xffff);
        let (least, most) = match fault {
            COUNT_0 => (0, 4_096),
            COUNT_4097 => (1, 4_097),
            COUNT_NOT_ASKED => (1, 65_535),
            COUNT_4096_REFUSED => (1, 4_095),
            _ => (1, 4_096),
        };
        let last = match fault {
            LEVEL_ONE_MORE => self.levels + 1,
            LEVEL_LAST_REFUSED => self.levels - 1,
            LEVEL_4_ALWAYS => 4,
            _ => self.levels,
        };
        let first = u64::from(fault == LEVEL_0_REFUSED);
        if tail >> 32 != 0 || !(first..=last).contains(&level) || count < least || count > most {
            return None;
        }
        let entry = [cell[1], cell[2], level, count];
        if fault == LARGEST_ID_NOT_SINGLE && entry[1] == u64::MAX
            || fault == AGREEING_HASHES_NOT_SINGLE && self.hashes_agree(&entry)
        {
            return None;
        }
        let check = f(3, &shingle(&entry));
        let fits = match fault {
            CHECK_NOT_ASKED => true,
            CHECK_LOW_32_BITS => check as u32 == cell[4] as u32,
            _ => check == cell[4],
        };
        let lies = places(&shingle(&entry), self.width).contains(&i) || fault == PLACE_NOT_ASKED;
        (fits && lies).then_some((entry, negative))
    }

    /// Whether the three hashes agree modulo the width. They always do modulo 1.
    fn hashes_agree(&self, entry: &Entry) -> bool {
        self.width > 1 && hashes_agree(&shingle(entry), self.width)
    }

    /// Takes single cells, as many as may be.
    fn take_all(&mut self) {
        let cells = self.cells.len();
        let most = match self.fault {
            TAKINGS_2Q => 2 * self.width as usize,
            TAKINGS_96 => cells.min(96),
            _ => cells,
        };
        let mut from = 0;
        for _ in 0..most {
            let mut order: Vec<usize> = (0..cells).collect();
            match self.fault {
                HIGHEST_FIRST => order.reverse(),
                SCAN_GOES_ON => order.rotate_left(from % cells),
                FIRST_CELL_NOT_SCANNED => drop(order.remove(0)),
                LAST_CELL_NOT_SCANNED => order.truncate(cells - 1),
                _ => {}
            }
            let found = order.into_iter().find(|&i| self.single(i).is_some());
            let Some(i) = found else {
                return;
            };
            from = i + 1;
            self.take(i);
        }
    }

    fn take(&mut self, i: usize) {
        let Some((entry, negative)) = self.single(i) else {
            return;
        };
        // A function that does not ask F(3), or part of the tail, takes what the cell holds.
        let mut held = [1, entry[0], entry[1], entry[2] << 16 | entry[3], 0];
        held[4] = f(3, &shingle(&entry));
        if matches!(
            self.fault,
            CHECK_NOT_ASKED | CHECK_LOW_32_BITS | TAIL_LOW_32_BITS
        ) {
            held = self.cells[i];
            if negative {
                held = held.map(|sum| sum.wrapping_neg());
            }
        }
        let once = self.fault == AGREEING_HASHES_REMOVED_ONCE && self.hashes_agree(&entry);
        let at = places(&shingle(&entry), self.width);
        for &place in if once { &at[..1] } else { &at } {
            for (sum, value) in self.cells[place].iter_mut().zip(held) {
                *sum = match negative {
                    false => sum.wrapping_sub(value),
                    true => sum.wrapping_add(value),
                };
            }
        }
        match negative {
            false => self.new.push(entry),
            true => self.gone.push(entry),
        }
    }

    fn all_zero(&self) -> bool {
        let cells = match self.fault {
            LAST_CELL_NOT_ASKED => &self.cells[..self.cells.len() - 1],
            _ => &self.cells[..],
        };
        cells.iter().all(|cell| match self.fault {
            LEFT_NOT_ASKED => true,
            NUMBERS_LEFT_ONLY => cell[0] == 0,
            CHECKS_LEFT_NOT_ASKED => cell[..4] == [0; 4],
            _ => *cell == [0; 5],
        })
    }
}

/// The own list of a table.
fn list(fault: u8, table: &[u8]) -> Vec<Entry> {
    let mut list = Vec::new();
    for row in rows(table).chunks_exact(3) {
        let entry = [row[0], row[1], row[2] >> 16, row[2] & 0xffff];
        let ends = match fault {
            LIST_ENDS_AT_TAIL_0 => row[2] == 0,
            LIST_ENDS_AT_ID_0 => entry[3] == 0 || entry[1] == 0,
            LIST_OF_4096 => entry[3] == 0 || list.len() == 4_096,
            _ => entry[3] == 0,
        };
        if ends && fault == LIST_GOES_ON {
            continue;
        }
        if ends {
            break;
        }
        list.push(match fault {
            LEVEL_16_BITS => [entry[0], entry[1], entry[2] & 0xffff, entry[3]],
            _ => entry,
        });
    }
    list
}

/// Whether what was taken goes with the own list.
fn fits(peeling: &Peeling, own: &[Entry]) -> bool {
    let fault = peeling.fault;
    let (new, gone) = (&peeling.new, &peeling.gone);
    let same_pair = |a: &Entry, b: &Entry| a[..3] == b[..3];
    let twice = |entries: &[Entry]| (1..entries.len()).any(|k| entries[..k].contains(&entries[k]));
    if fault != TWICE_AND_PAIRS_NOT_ASKED && twice(&[new.as_slice(), gone].concat()) {
        return false;
    }
    let gone_fit = gone.iter().all(|entry| match fault {
        NEGATIVE_NOT_ASKED => true,
        NEGATIVE_BY_PAIR => own.iter().any(|other| same_pair(entry, other)),
        NEGATIVE_BY_HALVING => own.binary_search_by_key(&shingle(entry), shingle).is_ok(),
        NEGATIVE_AMONG_4095 => own[..own.len().min(4_095)].contains(entry),
        NEGATIVE_FIRST_OF_4096_NOT_OWN => own[usize::from(own.len() == 4_096)..].contains(entry),
        _ => own.contains(entry),
    });
    let new_fit = new.iter().all(|entry| match fault {
        POSITIVE_BY_PAIR => !own.iter().any(|other| same_pair(entry, other)),
        POSITIVE_REPLACES => true,
        _ => !own.contains(entry),
    });
    let refused = match fault {
        OWN_MORE_REFUSED => own.len() > 4_096,
        UNSORTED_REFUSED => own
            .windows(2)
            .any(|two| shingle(&two[0]) > shingle(&two[1])),
        NO_OWN_REFUSED => own.is_empty(),
        NO_NEW_REFUSED => new.is_empty() && gone.len() == own.len(),
        ONE_SHINGLE_REFUSED => new.len() + gone.len() == 1,
        _ => false,
    };
    gone_fit && new_fit && !refused
}

/// The new list.
fn renewed(peeling: &Peeling, own: &[Entry]) -> Vec<Entry> {
    let fault = peeling.fault;
    let (new, gone) = (&peeling.new, &peeling.gone);
    let mut list = own.to_vec();
    match fault {
        ONE_OF_EQUAL_ONES_KEPT => {
            for entry in gone {
                if let Some(place) = list.iter().position(|other| other == entry) {
                    list.remove(place);
                }
            }
        }
        GONE_BY_PAIR => list.retain(|entry| !gone.iter().any(|other| other[..3] == entry[..3])),
        _ => list.retain(|entry| !gone.contains(entry)),
    }
    let sort = |list: &mut Vec<Entry>| match fault {
        SORTED_SIGNED => list.sort_by_key(|e| (e[2], e[0] as i64, e[1] as i64, e[3])),
        LEVEL_SORTED_LAST => list.sort_by_key(|e| (e[0], e[1], e[2], e[3])),
        _ => list.sort_by_key(|e| (e[2], e[0], e[1], e[3])),
    };
    if fault == POSITIVE_REPLACES {
        list.retain(|entry| !new.contains(entry));
    }
    match fault {
        NEW_ONES_LAST => {
            sort(&mut list);
            list.extend(new);
        }
        OWN_NOT_SORTED => {
            for entry in new {
                let after = |other: &Entry| shingle(other) > shingle(entry);
                let place = list.iter().position(after).unwrap_or(list.len());
                list.insert(place, *entry);
            }
        }
        PAIR_TWICE_BEFORE_SORTING => list.extend(new),
        _ => {
            list.extend(new);
            sort(&mut list);
        }
    }
    list
}

/// Whether the new list may be.
fn allowed(peeling: &Peeling, list: &mut [Entry]) -> bool {
    let fault = peeling.fault;
    let most = match fault {
        MOST_4097 => 4_097,
        MOST_4095 => 4_095,
        _ => 4_096,
    };
    if list.len() > most {
        return false;
    }
    let pairs: Vec<[u64; 3]> = list.iter().map(|entry| pair(fault, entry)).collect();
    match fault {
        PAIR_TWICE_NOT_ASKED | TWICE_AND_PAIRS_NOT_ASKED => true,
        PAIR_TWICE_BEFORE_SORTING => {
            list.sort_by_key(|e| (e[2], e[0], e[1], e[3]));
            pairs.windows(2).all(|two| two[0] != two[1])
        }
        PAIR_TWICE_OF_NEW_ONLY => peeling.new.iter().all(|entry| {
            let own = pair(fault, entry);
            pairs.iter().filter(|pair| **pair == own).count() == 1
        }),
        _ => {
            let mut sorted = pairs;
            sorted.sort();
            sorted.windows(2).all(|two| two[0] != two[1])
        }
    }
}

/// The first of the questions 3, 5 and 7 that has a no.
fn refused(fault: u8, levels: u64, width: u64, lengths: [usize; 3]) -> Option<u64> {
    let (least_level, most_level) = match fault {
        LEVELS_0 => (0, 4),
        LEVELS_5 => (1, 5),
        _ => (1, 4),
    };
    let most_width = match fault {
        WIDTH_65 => 65,
        WIDTH_64_REFUSED => 63,
        _ => 64,
    };
    let less = |when: u8| usize::from(fault == when);
    let cells = width.clamp(1, 65) as usize * 120;
    let [theirs, own, shingles] = lengths;
    let tables_wrong = theirs + less(THEIRS_ONE_SHORTER) < cells
        || own + less(OWN_ONE_SHORTER) < cells
        || shingles + less(SHINGLES_ONE_SHORTER) < 98_304 + less(SHINGLES_LONGER_THAN_NEEDED);
    let mut asked = [
        (!(least_level..=most_level).contains(&levels), 3),
        (!(1..=most_width).contains(&width), 5),
        (tables_wrong, 7),
    ];
    match fault {
        WIDTH_BEFORE_LEVELS => asked.swap(0, 1),
        TABLES_BEFORE_WIDTH => asked.swap(1, 2),
        _ => {}
    }
    asked
        .iter()
        .find(|(no, _)| *no)
        .map(|&(_, question)| question)
}

/// `rcds_sketch_open` with one fault.
fn answer(fault: u8, levels: u64, width: u64, theirs: &[u8], own: &[u8], table: &mut [u8]) -> u64 {
    let low = |number: u64, when: u8| match fault == when {
        true => number & 0xffff_ffff,
        false => number,
    };
    let levels = low(levels, LEVELS_LOW_32_BITS);
    let width = low(width, WIDTH_LOW_32_BITS);
    let lengths = [theirs.len(), own.len(), table.len()];
    if let Some(question) = refused(fault, levels, width, lengths) {
        return question;
    }
    let own_list = list(fault, table);
    let own_rows = match fault {
        OWN_CELLS_OF_THE_LIST => {
            let with_cells = own_list.iter().map(shingle).filter(|s| s.tail() < 1 << 32);
            sketch(&with_cells.collect::<Vec<_>>(), width).concat()
        }
        _ => rows(own),
    };
    let mut difference: Vec<u64> = rows(theirs);
    // A function that takes a table of one byte less reads a row that is cut.
    difference.resize(difference.len().max(15 * width as usize), 0);
    for (row, own) in difference.iter_mut().zip(&own_rows) {
        *row = row.wrapping_sub(*own);
    }
    if fault == OWN_MINUS_THEIRS {
        difference
            .iter_mut()
            .for_each(|row| *row = row.wrapping_neg());
    }
    if fault == NUMBER_32_BITS {
        let numbers = difference.iter_mut().step_by(5);
        numbers.for_each(|row| *row = *row as i32 as u64);
    }
    let cell = |rows: &[u64]| rows.try_into().expect("a cell has 5 rows");
    let cells = difference.chunks_exact(5).take(3 * width as usize);
    let mut peeling = Peeling {
        fault,
        levels,
        width,
        cells: cells.map(cell).collect(),
        new: Vec::new(),
        gone: Vec::new(),
    };
    peeling.take_all();
    let mut new_list = renewed(&peeling, &own_list);
    let opens = peeling.all_zero()
        && fits(&peeling, &own_list)
        && allowed(&peeling, &mut new_list)
        && fault != ALWAYS_CLOSED;
    if !opens && fault != CHANGED_AT_14 {
        return if fault == REFUSED_BY_7 { 7 } else { 14 };
    }
    write(fault, &new_list, table);
    match (opens, fault) {
        (false, _) => 14,
        (_, COUNTS_WHAT_WAS_TAKEN) => (1 << 32) + (peeling.new.len() + peeling.gone.len()) as u64,
        _ => (1 << 32) + new_list.len() as u64,
    }
}

fn write(fault: u8, list: &[Entry], table: &mut [u8]) {
    let cleared = match fault {
        NOT_CLEARED => 0,
        WHOLE_ENTRIES_CLEARED => table.len() / 24 * 24,
        _ => table.len(),
    };
    table[..cleared].fill(0);
    let rows = list.iter().flat_map(|e| [e[0], e[1], e[2] << 16 | e[3]]);
    for (bytes, row) in table.chunks_exact_mut(8).zip(rows) {
        bytes.copy_from_slice(&row.to_be_bytes());
    }
}

/// The function with one fault, as C would call it.
unsafe extern "C" fn faulty<const FAULT: u8>(
    levels: u64,
    width: u64,
    theirs: *const u8,
    theirs_len: usize,
    own: *const u8,
    own_len: usize,
    shingles: *mut u8,
    shingles_len: usize,
) -> u64 {
    let answer = answer(
        FAULT,
        levels,
        width,
        part(theirs, theirs_len),
        part(own, own_len),
        part_mut(shingles, shingles_len),
    );
    // The guard bytes and the cells come from vectors, so these writes stay in their memory.
    match FAULT {
        THEIRS_CHANGED if theirs_len > 0 => *theirs.cast_mut() ^= 1,
        OWN_CHANGED if own_len > 0 => *own.cast_mut() ^= 1,
        PAST_THE_SHINGLES if shingles_len > 0 => *shingles.add(shingles_len) ^= 1,
        BEFORE_THE_SHINGLES if shingles_len > 0 => *shingles.sub(1) ^= 1,
        _ => {}
    }
    answer
}

macro_rules! functions {
    ($($fault:ident)*) => { [$((stringify!($fault), faulty::<$fault> as SketchOpen)),*] };
}

const SEED: u64 = 1;

#[test]
fn the_right_function_passes() {
    match run(SEED, count() / 4, faulty::<NONE>) {
        Ok(report) => report.assert_complete(),
        Err(failure) => panic!("{failure}"),
    }
}

#[test]
fn every_fault_is_found() {
    let functions = functions! {
        POSITIVE_ONLY NOT_NEGATED CHECK_NOT_ASKED CHECK_LOW_32_BITS PLACE_NOT_ASKED COUNT_0
        COUNT_4097 COUNT_NOT_ASKED COUNT_4096_REFUSED LEVEL_ONE_MORE LEVEL_LAST_REFUSED
        LEVEL_0_REFUSED LEVEL_4_ALWAYS TAIL_LOW_32_BITS NUMBER_32_BITS HIGHEST_FIRST
        SCAN_GOES_ON TAKINGS_2Q TAKINGS_96 LEFT_NOT_ASKED NUMBERS_LEFT_ONLY CHECKS_LEFT_NOT_ASKED
        LAST_CELL_NOT_ASKED TWICE_AND_PAIRS_NOT_ASKED NEGATIVE_NOT_ASKED NEGATIVE_BY_PAIR
        POSITIVE_BY_PAIR POSITIVE_REPLACES MOST_4097 MOST_4095 OWN_MORE_REFUSED PAIR_TWICE_NOT_ASKED
        PAIR_TWICE_BEFORE_SORTING PAIR_TWICE_OF_NEW_ONLY PAIR_WITHOUT_LEVEL NEW_ONES_LAST
        OWN_NOT_SORTED SORTED_SIGNED LEVEL_SORTED_LAST NOT_CLEARED WHOLE_ENTRIES_CLEARED
        LIST_ENDS_AT_TAIL_0 LIST_ENDS_AT_ID_0 LIST_GOES_ON LIST_OF_4096 ONE_OF_EQUAL_ONES_KEPT
        GONE_BY_PAIR OWN_MINUS_THEIRS OWN_CELLS_OF_THE_LIST CHANGED_AT_14 WIDTH_65 WIDTH_64_REFUSED
        WIDTH_LOW_32_BITS LEVELS_5 LEVELS_0 LEVELS_LOW_32_BITS WIDTH_BEFORE_LEVELS
        TABLES_BEFORE_WIDTH THEIRS_ONE_SHORTER OWN_ONE_SHORTER SHINGLES_ONE_SHORTER
        SHINGLES_LONGER_THAN_NEEDED THEIRS_CHANGED OWN_CHANGED PAST_THE_SHINGLES BEFORE_THE_SHINGLES
        COUNTS_WHAT_WAS_TAKEN REFUSED_BY_7 LEVEL_16_BITS ALWAYS_CLOSED AGREEING_HASHES_NOT_SINGLE
        AGREEING_HASHES_REMOVED_ONCE FIRST_CELL_NOT_SCANNED LAST_CELL_NOT_SCANNED ONE_SHINGLE_REFUSED
        NEGATIVE_BY_HALVING NEGATIVE_AMONG_4095 NEGATIVE_FIRST_OF_4096_NOT_OWN UNSORTED_REFUSED
        NO_OWN_REFUSED NO_NEW_REFUSED LARGEST_ID_NOT_SINGLE
    };
    let mut passed = Vec::new();
    for (name, function) in functions {
        match run(SEED, count(), function) {
            Ok(_) => passed.push(name),
            Err(failure) => println!("{name}: {failure}"),
        }
    }
    assert!(passed.is_empty(), "passed: {passed:?}");
}
